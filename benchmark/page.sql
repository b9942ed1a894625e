-- The one page of an input of one snapshot, with room for 1,000 pairs of the numbers a and b.
create table line (text);
.mode list
.separator "\t" "\n"
.import /dev/stdin line
create table pairs as
select json_extract(text, '$.a') as a, json_extract(text, '$.b') as b, count(*) as number
from line
where rowid > 2
group by 1, 2
order by 1, 2
limit 1000;
select '{"page":1,"results":{"g":{'
    || coalesce((select '"after_key":{"a":"i64:' || a || '","b":"i64:' || b || '"},'
        from pairs where rowid = 1000), '')
    || '"buckets":['
    || group_concat('{"doc_count":' || number || ',"key":{"a":' || a || ',"b":' || b || '}}', ',')
    || ']}}}'
from pairs;
select '{"ended":' || iif(count(*) < 1000, 'true', 'false') || '}' from pairs;
