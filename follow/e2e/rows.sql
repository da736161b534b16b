-- What `rows` does, one paragraph after the other, each a simple query. The first makes the tables: all four replica identities, values that are kept
-- outside their row, types of the database's own, a column that is dropped and one that is generated, 1,000 columns.
CREATE TYPE mood AS ENUM ('heiter', 'wolkig');
CREATE DOMAIN short AS varchar(12);
CREATE TABLE by_default (id int PRIMARY KEY, gone int, n bigint, words text, at timestamptz, half numeric(20, 4), yes boolean, bytes bytea);
ALTER TABLE by_default DROP COLUMN gone;
CREATE TABLE by_index (a int, b text NOT NULL, c text NOT NULL, big text);
ALTER TABLE by_index ALTER big SET STORAGE EXTERNAL;
CREATE UNIQUE INDEX by_index_key ON by_index (c, b);
ALTER TABLE by_index REPLICA IDENTITY USING INDEX by_index_key;
CREATE TABLE by_all (n int, words text, big text);
ALTER TABLE by_all ALTER big SET STORAGE EXTERNAL;
ALTER TABLE by_all REPLICA IDENTITY FULL;
CREATE TABLE by_nothing (id int PRIMARY KEY, words text);
ALTER TABLE by_nothing REPLICA IDENTITY NOTHING;
CREATE SCHEMA "Ünter Schema";
CREATE TABLE "Ünter Schema"."日本 語" ("Schlüssel ""1""" mood PRIMARY KEY, "δ" short,
    counted int GENERATED ALWAYS AS (cardinality(list)) STORED, grant_of aclitem, list int[]);
CREATE TABLE no_columns ();
CREATE TABLE numbered (id serial PRIMARY KEY, owner int REFERENCES by_default);
DO $$ BEGIN
    EXECUTE 'CREATE TABLE wide (c0 int PRIMARY KEY, ' ||
        (SELECT string_agg('c' || i || CASE WHEN i % 2 = 0 THEN ' int' ELSE ' text' END, ', ') FROM generate_series(1, 999) i) || ')';
END $$;
CREATE PUBLICATION rows FOR ALL TABLES;
SELECT pg_replication_origin_create(current_database())

INSERT INTO by_default VALUES (1, 2, 'Grüße, κόσμε, 世界', '2000-01-01 00:00:00.000001+00', 12345.6789, true, '\x00ff'),
    (2, NULL, NULL, NULL, NULL, NULL, NULL), (-3, -9223372036854775808, '', 'infinity', 'NaN', false, '')

BEGIN; INSERT INTO by_default (id) SELECT generate_series(100, 400); UPDATE by_default SET n = id, words = 'words of ' || id WHERE id > 100;
DELETE FROM by_default WHERE id > 200; COMMIT

UPDATE by_default SET words = NULL, n = 7 WHERE id = 1; UPDATE by_default SET words = E'a\tb\n\\c' WHERE id = 2

UPDATE by_default SET id = 10 WHERE id = 1; UPDATE by_default SET id = id + 1000 WHERE id = 10; DELETE FROM by_default WHERE id = 2

INSERT INTO by_index VALUES (1, 'b', 'c', repeat('zehn Bytes', 2000)), (NULL, 'b', 'd', NULL), (3, 'x', 'y', repeat('0123456789', 10000))

UPDATE by_index SET a = a + 1; UPDATE by_index SET a = 5 WHERE b = 'x'

UPDATE by_index SET b = 'B' WHERE c = 'c'; UPDATE by_index SET c = 'z', big = 'short' WHERE b = 'x'; DELETE FROM by_index WHERE c = 'd'

INSERT INTO by_all VALUES (1, 'one', repeat('ungekürzt ', 1000)), (1, 'one', repeat('ungekürzt ', 1000)), (NULL, NULL, NULL), (2, '', 'x')

UPDATE by_all SET words = words || '!'; UPDATE by_all SET n = 5 WHERE n IS NULL

UPDATE by_all SET big = NULL WHERE n = 2; DELETE FROM by_all WHERE ctid = (SELECT min(ctid) FROM by_all WHERE n = 1)

INSERT INTO by_nothing VALUES (1, 'one'), (2, NULL)

INSERT INTO "Ünter Schema"."日本 語" VALUES ('heiter', 'kurz', DEFAULT, 'postgres=r/postgres', '{1,NULL,3}'),
    ('wolkig', NULL, DEFAULT, NULL, NULL)

UPDATE "Ünter Schema"."日本 語" SET "δ" = 'länger'; DELETE FROM "Ünter Schema"."日本 語" WHERE list IS NULL

INSERT INTO no_columns DEFAULT VALUES; INSERT INTO no_columns DEFAULT VALUES

DO $$ BEGIN
    FOR k IN 1..3 LOOP
        EXECUTE 'INSERT INTO wide VALUES (' || k || ', ' ||
            (SELECT string_agg(CASE WHEN i % 7 = 0 THEN 'NULL' ELSE (k * i)::text END, ', ') FROM generate_series(1, 999) i) || ')';
    END LOOP;
END $$

UPDATE wide SET c500 = NULL, c999 = 'the last' WHERE c0 = 2; UPDATE wide SET c0 = 30 WHERE c0 = 3; DELETE FROM wide WHERE c0 = 1

BEGIN; INSERT INTO by_default (id) VALUES (77); SAVEPOINT s; INSERT INTO by_default (id) VALUES (78); TRUNCATE by_all; ROLLBACK TO s;
INSERT INTO by_default (id) VALUES (79); COMMIT

SELECT pg_replication_origin_session_setup(current_database()); BEGIN; SELECT pg_replication_origin_xact_setup('AB/CD', '2020-02-02');
INSERT INTO by_nothing VALUES (3, 'from elsewhere'); COMMIT; SELECT pg_replication_origin_session_reset()

INSERT INTO numbered (owner) VALUES (77), (79), (77); TRUNCATE by_index, by_nothing, wide

TRUNCATE by_default CASCADE

INSERT INTO numbered DEFAULT VALUES; TRUNCATE numbered, "Ünter Schema"."日本 語" RESTART IDENTITY

INSERT INTO by_all VALUES (9, 'nine', NULL); INSERT INTO numbered DEFAULT VALUES; TRUNCATE by_default, by_all RESTART IDENTITY CASCADE;
INSERT INTO numbered DEFAULT VALUES

ALTER TABLE by_nothing ADD later int DEFAULT 8; ALTER TABLE by_nothing REPLICA IDENTITY DEFAULT; INSERT INTO by_nothing VALUES (5, 'five');
UPDATE by_nothing SET id = 6, later = NULL; ALTER TABLE by_nothing RENAME words TO "Wörter"; ALTER TABLE by_nothing ALTER later TYPE text;
DELETE FROM by_nothing WHERE id > 6; INSERT INTO by_nothing VALUES (7, 'seven', 'siebte')
