-- As page.sql, with the number of documents whose c is from 250 up to below 750 beside the pairs.
create table line (text);
.mode list
.separator "\t" "\n"
.import /dev/stdin line
create table pairs as
select a, b, count(*) as number, count(*) filter (where c >= 250 and c < 750) as matching
from (
    select json_extract(text, '$.a') as a, json_extract(text, '$.b') as b,
        json_extract(text, '$.c') as c
    from line
    where rowid > 2
)
group by a, b
order by a, b;
select '{"page":1,"results":{"f":{"doc_count":' || (select sum(matching) from pairs) || '},"g":{'
    || coalesce((select '"after_key":{"a":"i64:' || a || '","b":"i64:' || b || '"},'
        from pairs where rowid = 1000), '')
    || '"buckets":['
    || group_concat('{"doc_count":' || number || ',"key":{"a":' || a || ',"b":' || b || '}}', ',')
    || ']}}}'
from pairs
where rowid <= 1000;
select '{"ended":' || iif(count(*) < 1000, 'true', 'false') || '}' from pairs;
