-- As page.sql, with the sum and the number of the numbers c below each pair, and the sum of all of
-- them beside the pairs.
create table line (text);
.mode list
.separator "\t" "\n"
.import /dev/stdin line
create table pairs as
select a, b, count(*) as number, coalesce(sum(c), 0) as sum, count(c) as count
from (
    select json_extract(text, '$.a') as a, json_extract(text, '$.b') as b,
        json_extract(text, '$.c') as c
    from line
    where rowid > 2
)
group by a, b
order by a, b;
select '{"page":1,"results":{"g":{'
    || coalesce((select '"after_key":{"a":"i64:' || a || '","b":"i64:' || b || '"},'
        from pairs where rowid = 1000), '')
    || '"buckets":['
    || group_concat('{"doc_count":' || number || ',"key":{"a":' || a || ',"b":' || b
        || '},"s":{"value":' || sum || '},"v":{"value":' || count || '}}', ',')
    || ']},"t":{"value":' || (select sum(sum) from pairs) || '}}}'
from pairs
where rowid <= 1000;
select '{"ended":' || iif(count(*) < 1000, 'true', 'false') || '}' from pairs;
