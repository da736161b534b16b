SELECT make('changing', 2), catalog();
INSERT INTO changing DEFAULT VALUES; INSERT INTO changing (c2) VALUES (NULL); INSERT INTO changing (c1) VALUES (E'"\\\n\x01\x7f, ü, 世界');
UPDATE changing SET c1 = 'other'; UPDATE changing SET id = -id WHERE id = 1; DELETE FROM changing WHERE id = 2;

ALTER TABLE changing ADD added numeric(9, 2) DEFAULT 5; SELECT catalog();
INSERT INTO changing DEFAULT VALUES; UPDATE changing SET added = NULL;

ALTER TABLE changing DROP c1; ALTER TABLE changing ALTER c2 SET STORAGE EXTERNAL; SELECT catalog();
INSERT INTO changing DEFAULT VALUES; UPDATE changing SET c2 = repeat('größer ', 3000); DELETE FROM changing WHERE id = -1;

ALTER TABLE changing RENAME c2 TO "Spalte ""zwei"""; SELECT catalog();
INSERT INTO changing DEFAULT VALUES; UPDATE changing SET added = 7;

ALTER TABLE changing ALTER added TYPE text; SELECT catalog();
INSERT INTO changing DEFAULT VALUES; UPDATE changing SET added = 'text';

-- Midway in a transaction, and in one that is rolled back.
BEGIN; INSERT INTO changing DEFAULT VALUES; ALTER TABLE changing ADD midway int; SELECT catalog(); INSERT INTO changing (midway) VALUES (4); COMMIT;
BEGIN; ALTER TABLE changing DROP midway; SELECT catalog(); INSERT INTO changing DEFAULT VALUES; ROLLBACK;
SELECT setval('rows', currval('rows') - 1); INSERT INTO changing DEFAULT VALUES;

ALTER TABLE changing REPLICA IDENTITY FULL; SELECT catalog();
INSERT INTO changing DEFAULT VALUES; UPDATE changing SET midway = 5; DELETE FROM changing WHERE id < 6;
CREATE UNIQUE INDEX midway_id ON changing (midway, id); ALTER TABLE changing ALTER midway SET NOT NULL;
ALTER TABLE changing REPLICA IDENTITY USING INDEX midway_id; SELECT catalog();
UPDATE changing SET midway = 6; INSERT INTO changing (midway) VALUES (6); UPDATE changing SET added = 'a'; DELETE FROM changing WHERE id = 6;

ALTER TABLE changing RENAME TO "Geändert"; CREATE SCHEMA "Other Schema"; ALTER TABLE "Geändert" SET SCHEMA "Other Schema"; SELECT catalog();
INSERT INTO "Other Schema"."Geändert" (midway) VALUES (1); TRUNCATE "Other Schema"."Geändert";

-- Dropped and made anew, under the former name.
DROP TABLE "Other Schema"."Geändert"; SELECT make('changing', 1, 'anew'), catalog();
INSERT INTO changing DEFAULT VALUES; UPDATE changing SET anew1 = NULL; DELETE FROM changing;

-- 32 columns, then 33, and 32 again; names of 63 bytes.
SELECT make('wide', 31, repeat('ü', 30)), catalog();
INSERT INTO wide DEFAULT VALUES;
ALTER TABLE wide ADD one_more int; SELECT catalog();
INSERT INTO wide DEFAULT VALUES; UPDATE wide SET one_more = 1; UPDATE wide SET id = -id; DELETE FROM wide;
ALTER TABLE wide DROP one_more; SELECT catalog();
INSERT INTO wide DEFAULT VALUES; UPDATE wide SET id = -id;
SELECT make('wider', 32), make('widest', 1000), catalog();
INSERT INTO wider DEFAULT VALUES; INSERT INTO widest DEFAULT VALUES; UPDATE wider SET c1 = NULL; DELETE FROM widest; TRUNCATE wide, wider;
SELECT make('longest', 1, repeat('n', 62)), catalog();
INSERT INTO longest DEFAULT VALUES;
