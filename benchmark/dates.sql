-- The one page of an input of one snapshot, whose page has room for all pairs of the month of the
-- date d and the week of the date e.
create table line (text);
.mode list
.separator "\t" "\n"
.import /dev/stdin line
select '{"page":1,"results":{"g":{"buckets":['
    || group_concat('{"doc_count":' || number || ',"key":{"m":' || m || ',"w":' || w || '}}', ',')
    || ']}}}'
from (
    select m, w, count(*) as number
    from (
        select
            1000 * strftime('%s', json_extract(text, '$.d.dt') / 1000000000, 'unixepoch',
                'start of month') as m,
            1000 * strftime('%s', json_extract(text, '$.e.dt') / 1000000000, 'unixepoch',
                'weekday 0', '-6 days', 'start of day') as w
        from line
        where rowid > 2
    )
    group by 1, 2
    order by m, w
);
select '{"ended":true}';
