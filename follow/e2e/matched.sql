-- Tables that change while they are followed. After each change `catalog` tells in a message what the tables are from there on: a line for each, its
-- OID, its schema and name, and for each column its name, type and whether it belongs to the key; names in hexadecimal digits.
CREATE SEQUENCE rows;
CREATE FUNCTION catalog() RETURNS void LANGUAGE plpgsql AS $$
BEGIN
    PERFORM pg_logical_emit_message(true, 'catalog', (SELECT string_agg(concat_ws(' ', c.oid, in_digits(n.nspname), in_digits(c.relname),
        (SELECT string_agg(concat_ws(':', in_digits(a.attname), a.atttypid,
            (c.relreplident = 'f' OR coalesce(a.attnum = ANY (i.indkey), false))::int), ' ' ORDER BY a.attnum)
        FROM pg_attribute a LEFT JOIN pg_index i ON i.indrelid = c.oid
            AND (c.relreplident = 'd' AND i.indisprimary OR c.relreplident = 'i' AND i.indisreplident)
        WHERE a.attrelid = c.oid AND a.attnum > 0 AND NOT a.attisdropped AND a.attgenerated = '')), E'\n')
    FROM pg_class c JOIN pg_namespace n ON n.oid = c.relnamespace WHERE c.relkind = 'r' AND c.oid >= 16384));
END $$;
CREATE FUNCTION in_digits(name name) RETURNS text LANGUAGE sql AS $$ SELECT encode(convert_to(name::text, 'UTF8'), 'hex') $$;
-- A table of so many columns after its number; every row of every table has the next number in front.
CREATE FUNCTION make(name text, columns int, label text DEFAULT 'c') RETURNS void LANGUAGE plpgsql AS $$
BEGIN
    EXECUTE format('CREATE TABLE %I (id bigint PRIMARY KEY DEFAULT nextval(%L)%s)', name, 'rows',
        (SELECT string_agg(format(', %I text DEFAULT %L', label || i, 'v' || i), '') FROM generate_series(1, columns) i));
END $$;
CREATE PUBLICATION matched FOR ALL TABLES;
SELECT pg_create_logical_replication_slot(current_database(), 'pgoutput');
