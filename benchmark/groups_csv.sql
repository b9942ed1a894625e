.mode csv
.import /dev/stdin records
.headers on
.separator , "\n"
SELECT shop, count(*) AS count, sum(items) AS "sum(items)" FROM records GROUP BY shop ORDER BY shop;
