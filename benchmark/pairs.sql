-- The one page of an input of one snapshot, whose page has room for all pairs of the fields a,
-- which each document has, and b, descending, which some lack.
create table line (text);
.mode list
.separator "\t" "\n"
.import /dev/stdin line
select '{"page":1,"results":{"g":{"buckets":['
    || group_concat('{"doc_count":' || number || ',"key":{"a":' || a || ',"b":' || b || '}}', ',')
    || ']}}}'
from (
    select a, coalesce('"' || b || '"', 'null') as b, number
    from (
        select json_extract(text, '$.a') as a, json_extract(text, '$.b') as b, count(*) as number
        from line
        where rowid > 2 and text <> 'segment'
        group by 1, 2
    )
    order by a, b is null, b desc
);
select '{"ended":true}';
