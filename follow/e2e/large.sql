\set n random(1, 1000000)
BEGIN;
INSERT INTO english (n, words) SELECT :n, string_agg(md5((:n + i * j)::text), '') FROM generate_series(1, 100) i, generate_series(1, 4) j GROUP BY j;
INSERT INTO ledger (xid) VALUES (txid_current());
COMMIT;
