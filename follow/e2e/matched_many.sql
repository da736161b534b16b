-- 70 tables and more: those past the sixty-fourth are not held, and those that are held can still change.
SELECT make('t' || i, i % 7) FROM generate_series(1, 70) i;
SELECT catalog();
DO $$ BEGIN FOR i IN 1..70 LOOP EXECUTE 'INSERT INTO t' || i || ' DEFAULT VALUES'; END LOOP; END $$;
DO $$ BEGIN FOR i IN REVERSE 70..1 LOOP EXECUTE 'UPDATE t' || i || ' SET id = -id'; EXECUTE 'DELETE FROM t' || i; END LOOP; END $$;
ALTER TABLE t1 ADD later int; ALTER TABLE t70 ADD later int; SELECT catalog();
INSERT INTO t1 DEFAULT VALUES; INSERT INTO t70 DEFAULT VALUES;
SELECT make('late', 40), catalog();
INSERT INTO late DEFAULT VALUES; TRUNCATE t1, t70, late;
DROP TABLE t2; SELECT make('t2', 2), catalog();
INSERT INTO t2 DEFAULT VALUES;
