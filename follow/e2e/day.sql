-- A day's log: a transaction a second that writes to each of the four tables, some rows changed and some deleted later.
SET synchronous_commit = off;
DO $$
BEGIN
    FOR i IN 1..86400 LOOP
        INSERT INTO english (n, words) VALUES (i, 'Second ' || i || ' of the day, "quoted" and \ all');
        INSERT INTO deutsch (n, words) VALUES (i, 'Sekunde ' || i || ': Größe, Übermaß');
        INSERT INTO "ελληνικά" (n, words) VALUES (i, 'δευτερόλεπτο ' || i);
        INSERT INTO "日本語" (n, words) VALUES (nullif(i % 5, 0), '秒' || i || E'\t\n' || chr(1 + i % 31));
        IF i % 10 = 0 THEN
            UPDATE english SET words = 'changed at ' || i WHERE id = i - 5;
        END IF;
        IF i % 20 = 0 THEN
            DELETE FROM deutsch WHERE id = i - 7;
        END IF;
        COMMIT;
    END LOOP;
END $$;
