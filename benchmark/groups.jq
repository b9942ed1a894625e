reduce inputs as $it ({}; .[$it.shop] |= [(.[0] // 0) + 1, (.[1] // 0) + $it.items])
| "shop,count,sum(items)", (to_entries | sort_by(.key)[] | "\(.key),\(.value[0]),\(.value[1])")
