-- What follow printed of day.sql, on standard input, read by PostgreSQL itself: how many commits, and how many rows are left over on either side when all changes are made.
CREATE TEMPORARY TABLE lines (place bigserial, line json);
\copy lines (line) FROM pstdin WITH (FORMAT csv, QUOTE e'\x01', DELIMITER e'\x02')
CREATE TEMPORARY TABLE changes AS
SELECT place, line ->> 'table' AS name, line ->> 'kind' AS kind,
    (SELECT jsonb_object_agg(c ->> 'name', c ->> 'value') FROM json_array_elements(coalesce(line -> 'columns', line -> 'identity')) c) AS columns
FROM lines WHERE line ->> 'kind' IN ('insert', 'update', 'delete');
CREATE TEMPORARY TABLE printed AS
SELECT name, columns ->> 'id' AS id, columns ->> 'n' AS n, columns ->> 'words' AS words
FROM (SELECT DISTINCT ON (name, columns ->> 'id') * FROM changes ORDER BY name, columns ->> 'id', place DESC) last WHERE kind <> 'delete';
CREATE TEMPORARY TABLE held AS
SELECT 'english' AS name, id::text, n::text, words FROM english UNION ALL SELECT 'deutsch', id::text, n::text, words FROM deutsch
UNION ALL SELECT 'ελληνικά', id::text, n::text, words FROM "ελληνικά" UNION ALL SELECT '日本語', id::text, n::text, words FROM "日本語";
SELECT (SELECT count(*) FROM lines WHERE line ->> 'event' = 'commit'),
    (SELECT count(*) FROM (SELECT * FROM printed EXCEPT ALL SELECT * FROM held) more),
    (SELECT count(*) FROM (SELECT * FROM held EXCEPT ALL SELECT * FROM printed) missing);
