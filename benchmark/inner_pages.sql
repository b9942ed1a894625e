-- The one page of an input of one snapshot: the groups of the number a, and below each a page of
-- the groups of the number b. Every page has room for 1,000 groups, and no more exist.
create table line (text);
.mode list
.separator "\t" "\n"
.import /dev/stdin line
create table pairs (a, b, number, primary key (a, b)) without rowid;
insert into pairs
select json_extract(text, '$.a'), json_extract(text, '$.b'), count(*)
from line
where rowid > 2
group by 1, 2;
create table groups as
select a, sum(number) as number,
    iif(count(*) < 1000, '', '"after_key":{"b":"i64:' || max(b) || '"},')
        || '"buckets":['
        || group_concat('{"doc_count":' || number || ',"key":{"b":' || b || '}}', ',')
        || ']' as below
from pairs
group by a
order by a;
select '{"page":1,"results":{"g":{'
    || iif(count(*) < 1000, '', '"after_key":{"a":"i64:' || max(a) || '"},')
    || '"buckets":['
    || group_concat('{"doc_count":' || number || ',"h":{' || below || '},"key":{"a":' || a || '}}',
        ',')
    || ']}}}'
from groups;
select '{"ended":' || iif(count(*) < 1000, 'true', 'false') || '}' from groups;
