\set n random(1, 1000000)
\set k random(0, 20)
BEGIN;
UPDATE english SET n = :n WHERE id = (SELECT max(id) - :k FROM english);
UPDATE "ελληνικά" SET words = 'Αλλαγή', n = n + 1 WHERE id = (SELECT max(id) - :k FROM "ελληνικά");
DELETE FROM deutsch WHERE id = (SELECT max(id) - :k FROM deutsch);
INSERT INTO ledger (xid) VALUES (txid_current());
COMMIT;
