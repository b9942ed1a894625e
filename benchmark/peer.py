"""The walk of an input, as a script would do it: json, Counter and lists, and no checks."""
import json
import sys
from collections import Counter, defaultdict
from datetime import datetime, timezone
from itertools import product

SECOND, DAY = 10**9, 86_400 * 10**9


class Descending:
    """A value that comes before those below it."""

    def __init__(self, value):
        self.value = value

    def __lt__(self, other):
        return other.value < self.value

    def __eq__(self, other):
        return other.value == self.value


class Date(int):
    """A date in nanoseconds."""


def start(interval, nanoseconds):
    """The start of the week or the month that a date lies in."""
    day = nanoseconds // DAY
    if interval == "month":
        day -= datetime.fromtimestamp(nanoseconds // SECOND, timezone.utc).day - 1
    elif interval == "week":
        day -= (day + 3) % 7
    return Date(day * DAY if interval else nanoseconds)


def held(document, field):
    """The values of a field in a document."""
    values = document.get(field, [])
    return values if isinstance(values, list) else [values]


class Source:
    """Where keys come from: the numbers, texts and dates of a field, or the starts of its dates;
    and None where a document has no value."""

    def __init__(self, source):
        [(self.name, kind)] = source.items()
        [body] = kind.values()
        self.field, self.descends = body["field"], body.get("order") == "desc"
        self.has_missing = body.get("missing_bucket", False)
        self.interval = body.get("calendar_interval")

    def values(self, document):
        keys = [self.key(value) for value in held(document, self.field)]
        return keys or ([None] if self.has_missing else [])

    def key(self, value):
        return start(self.interval, value["dt"]) if isinstance(value, dict) else value

    def rank(self, value):
        """What sorts as the value does, None first, or last in descending order."""
        if not self.has_missing:
            return Descending(value) if self.descends else value
        if self.descends:
            return (value is None, value is not None and Descending(value))
        return (value is not None, value)


def after_text(value):
    kinds = {type(None): "null", str: "str", Date: "dt", int: "i64"}
    return f"{kinds[type(value)]}:{'' if value is None else value}"


def shown(value):
    """A date as milliseconds, rounded toward zero, and any other value as it is."""
    return int(value / 10**6) if isinstance(value, Date) else value


class Composite:
    """A page of the groups of documents, with the results below each group."""

    def __init__(self, body, below):
        self.sources = [Source(source) for source in body["sources"]]
        self.size, self.bound, self.below = body["size"], None, below

    def keys(self, document):
        return product(*(source.values(document) for source in self.sources))

    def groups(self, documents):
        """The documents of each key, or just their number where nothing stands below."""
        if not self.below:
            return Counter(key for document in documents for key in self.keys(document))
        groups = defaultdict(list)
        for document in documents:
            for key in self.keys(document):
                groups[key].append(document)
        return groups

    def rank(self, key):
        return tuple(source.rank(value) for source, value in zip(self.sources, key))

    def named(self, values):
        return {source.name: value for source, value in zip(self.sources, values)}

    def bucket(self, key, group):
        count = len(group) if self.below else group
        shown_key = self.named(map(shown, key))
        return {"doc_count": count, "key": shown_key, **results(self.below, group)}

    def result(self, documents):
        groups = self.groups(documents)
        ranked = ((self.rank(key), key) for key in groups)
        left = (entry for entry in ranked if self.bound is None or self.bound < entry[0])
        page = sorted(left)[:self.size]
        result = {"buckets": [self.bucket(key, groups[key]) for _, key in page]}
        if len(page) == self.size:
            self.last, key = page[-1]
            result["after_key"] = self.named(map(after_text, key))
        return result


class Range:
    """The documents that hold a number from one bound up to below another, counted."""

    def __init__(self, body, below):
        self.field, self.below = body["field"], below
        self.low, self.high = (int(body[bound].split(":")[1]) for bound in ("gte", "lt"))

    def matches(self, document):
        return any(self.low <= value < self.high for value in held(document, self.field))

    def result(self, documents):
        matching = [document for document in documents if self.matches(document)]
        return {"doc_count": len(matching), **results(self.below, matching)}


class Metric:
    """The sum or the number of the numbers of a field."""

    def __init__(self, kind, body):
        self.of, self.field = {"sum": sum, "value_count": len}[kind], body["field"]

    def result(self, documents):
        values = [value for document in documents for value in held(document, self.field)]
        return {"value": self.of(values)}


def aggregation(written):
    below = aggregations(written.get("aggs", {}))
    if "composite" in written:
        return Composite(written["composite"], below)
    if "filter" in written:
        return Range(written["filter"]["range"], below)
    [(kind, body)] = written.items()
    return Metric(kind, body)


def aggregations(written):
    return {name: aggregation(one) for name, one in written.items()}


def results(asked, documents):
    """The results of aggregations over documents, by name."""
    return {name: one.result(documents) for name, one in asked.items()}


def snapshots(lines):
    """The page size and the documents of each snapshot."""
    size, documents = None, []
    for line in lines:
        if line.startswith("snapshot "):
            if size is not None:
                yield size, documents
            size, documents = int(line.split()[1]), []
        elif line.strip() not in ("", "segment"):
            documents.append(json.loads(line))
    if size is not None:
        yield size, documents


def walk(lines):
    header = json.loads(next(lines))
    asked, name = aggregations(header["request"]), header["name"]
    paged, number, ended = asked[name], 0, False
    for size, documents in snapshots(lines):
        paged.size = size
        page = results(asked, documents)
        number, ended = number + 1, "after_key" not in page[name]
        yield {"page": number, "results": page}
        if ended:
            break
        paged.bound = paged.last
    yield {"ended": ended}


for line in walk(sys.stdin):
    print(json.dumps(line, separators=(",", ":"), sort_keys=True))
