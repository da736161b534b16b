\set n random(1, 1000000)
BEGIN;
SELECT pg_logical_emit_message(true, 'inside', 'γράμμα ' || :n);
SELECT pg_logical_emit_message(false, 'outside', '手紙 ' || :n);
INSERT INTO ledger (xid) VALUES (txid_current());
COMMIT;
