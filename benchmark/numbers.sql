-- The one page of an input of one snapshot, whose page has room for all groups of the field a.
create table line (text);
.mode list
.separator "\t" "\n"
.import /dev/stdin line
select '{"page":1,"results":{"g":{"buckets":['
    || group_concat('{"doc_count":' || number || ',"key":{"a":' || value || '}}', ',')
    || ']}}}'
from (
    select value, count(*) as number
    from line, json_each(text, '$.a')
    where line.rowid > 2
    group by value
    order by value
);
select '{"ended":true}';
