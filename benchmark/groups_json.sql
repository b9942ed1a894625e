CREATE TABLE lines(line TEXT);
.mode ascii
.separator "\t" "\n"
.import /dev/stdin lines
.mode csv
.headers on
.separator , "\n"
SELECT line ->> 'shop' AS shop, count(*) AS count, sum(line ->> 'items') AS "sum(items)"
FROM lines GROUP BY shop ORDER BY shop;
