-- A fence for PostgreSQL: it refuses a write that shows a smaller term of a ticket than an earlier write.
--
-- Each session shows its ticket and its term as settings. A program that uses libpq needs no change:
--     PGOPTIONS="-c booth.ticket=$BOOTH_TICKET -c booth.term=$BOOTH_TICKET_TERM" PROGRAM
--
-- Load the file once, and then have each table that the service writes ask the fence:
--     CREATE TRIGGER fence BEFORE INSERT OR UPDATE OR DELETE OR TRUNCATE ON TABLE
--         FOR EACH STATEMENT EXECUTE FUNCTION fenced();

CREATE TABLE fence (
    ticket text PRIMARY KEY,
    term bigint NOT NULL CHECK (term BETWEEN 1 AND 4294967295)
);

-- Remembers a greater term, and raises an error for a smaller one. The row stays locked until the transaction ends, so
-- no greater term can be stored between this comparison and the commit.
CREATE FUNCTION pass_fence(shown_ticket text, shown_term bigint) RETURNS void LANGUAGE plpgsql AS $$
DECLARE
    greatest_term bigint;
BEGIN
    INSERT INTO fence VALUES (shown_ticket, shown_term) ON CONFLICT DO NOTHING;
    UPDATE fence SET term = shown_term WHERE ticket = shown_ticket AND term < shown_term;
    SELECT term INTO STRICT greatest_term FROM fence WHERE ticket = shown_ticket FOR SHARE;
    IF shown_term < greatest_term THEN
        RAISE EXCEPTION 'term % of ticket % is below %, which a later holder has shown',
            shown_term, shown_ticket, greatest_term USING ERRCODE = 'insufficient_privilege';
    END IF;
END
$$;

-- The trigger: the term that the session shows must pass.
CREATE FUNCTION fenced() RETURNS trigger LANGUAGE plpgsql AS $$
DECLARE
    shown_ticket text := current_setting('booth.ticket', true);
    shown_term text := current_setting('booth.term', true);
BEGIN
    IF coalesce(shown_ticket, '') = '' OR coalesce(shown_term, '') !~ '^[0-9]{1,10}$' OR shown_term::bigint = 0 THEN
        RAISE EXCEPTION 'this session shows no term: set booth.ticket and booth.term'
            USING ERRCODE = 'insufficient_privilege';
    END IF;
    PERFORM pass_fence(shown_ticket, shown_term::bigint);
    RETURN NULL;
END
$$;
