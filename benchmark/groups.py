"""Sums of items by shop, from JSON lines or CSV on standard input, as CSV in the order of shops."""
import csv
import json
import sys

counts, sums = {}, {}
if sys.argv[1] == "jsonl":
    pairs = ((it["shop"], it["items"]) for it in map(json.loads, sys.stdin))
else:
    pairs = ((it["shop"], int(it["items"])) for it in csv.DictReader(sys.stdin))
for shop, items in pairs:
    counts[shop] = counts.get(shop, 0) + 1
    sums[shop] = sums.get(shop, 0) + items
print("shop,count,sum(items)")
for shop in sorted(counts):
    print(f"{shop},{counts[shop]},{sums[shop]}")
