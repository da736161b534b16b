\set n random(1, 1000000)
\set k random(1, 30)
BEGIN;
INSERT INTO english (n, words) VALUES (:n, repeat('The quick brown fox. ', :k));
INSERT INTO deutsch (n, words) VALUES (:n, repeat('Größe, Übermaß, Straße. ', :k));
INSERT INTO "ελληνικά" (n, words) VALUES (:n, repeat('Καλημέρα κόσμε. ', :k));
INSERT INTO "日本語" (n, words) VALUES (NULL, repeat('こんにちは世界。', :k));
INSERT INTO ledger (xid) VALUES (txid_current());
COMMIT;
