-- A name has 63 bytes in the server's encoding, LATIN1, and more in ours.
SELECT make('long', 1, repeat('ä', 40)), catalog();
INSERT INTO long DEFAULT VALUES; UPDATE long SET id = -id;
SELECT make('renamed', 2), catalog();
INSERT INTO renamed DEFAULT VALUES;
DO $$ BEGIN EXECUTE format('ALTER TABLE renamed RENAME c1 TO %I', repeat('ö', 32)); END $$; SELECT catalog();
INSERT INTO renamed DEFAULT VALUES; UPDATE renamed SET c2 = 'grün'; UPDATE renamed SET id = -id;
DELETE FROM renamed WHERE id = (SELECT min(id) FROM renamed);
DO $$ BEGIN EXECUTE format('ALTER TABLE renamed RENAME %I TO %I', repeat('ö', 32), repeat('ö', 31)); END $$; SELECT catalog();
INSERT INTO renamed DEFAULT VALUES;
