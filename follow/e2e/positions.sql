-- What the server's own type pg_lsn says of a text that is handed over as bytes: its value and its spelling, or that it is refused. Bytes that are no
-- text of the server (a zero byte, ill-formed UTF-8) never reach the type, and are refused too.
CREATE FUNCTION read_position(bytes bytea) RETURNS text LANGUAGE plpgsql AS $$
DECLARE
    position pg_lsn;
BEGIN
    position := convert_from(bytes, 'UTF8')::pg_lsn;
    RETURN (position - '0/0'::pg_lsn)::text || ' ' || position::text;
EXCEPTION
    WHEN invalid_text_representation OR character_not_in_repertoire THEN RETURN 'refused';
END $$;
CREATE TABLE position_texts (place serial, digits text);
