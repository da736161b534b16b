BEGIN;
TRUNCATE english, "日本語";
INSERT INTO ledger (xid) VALUES (txid_current());
COMMIT;
