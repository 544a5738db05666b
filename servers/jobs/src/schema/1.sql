-- The first form of the table. It may run again at any time, and then changes nothing that stands.
CREATE TABLE IF NOT EXISTS jobs (
    id bigint GENERATED ALWAYS AS IDENTITY PRIMARY KEY,
    -- From the id, so that whoever has the id of a job knows its partition without a look.
    partition smallint GENERATED ALWAYS AS ((id % 64)::smallint) STORED,
    due timestamptz NOT NULL DEFAULT clock_timestamp() CHECK (isfinite(due)),
    payload text NOT NULL DEFAULT '' CHECK (octet_length(payload) <= 1048576),
    state text NOT NULL DEFAULT 'waiting' CHECK (state IN ('waiting', 'running', 'done', 'dead')),
    lease_until timestamptz,
    attempt integer NOT NULL DEFAULT 0,
    -- When it was last given out, and when its last attempt ended.
    started timestamptz,
    ended timestamptz,
    error text
) WITH (
    -- Leases are written again and again: half a page is left free, so that a row's new version stays on its page.
    fillfactor = 50,
    autovacuum_vacuum_scale_factor = 0.02,
    autovacuum_vacuum_cost_delay = 0
);

CREATE INDEX IF NOT EXISTS jobs_waiting ON jobs (partition, due) WHERE state = 'waiting';
-- Without lease_until, so that the write of a lease touches no index.
CREATE INDEX IF NOT EXISTS jobs_running ON jobs (partition) WHERE state = 'running';

-- Tells what is due before the next reading of its owner: one notification a statement, and none for later jobs, since
-- a notification holds a lock over the whole database while its transaction commits.
CREATE OR REPLACE FUNCTION jobs_tell() RETURNS trigger LANGUAGE plpgsql AS $$
DECLARE
    near integer;
    told text;
BEGIN
    SELECT count(*), string_agg(id || ' ' || (extract(epoch FROM due) * 1000000)::bigint, ',')
    INTO near, told
    FROM (
        SELECT id, due FROM enqueued
        WHERE state = 'waiting' AND due < clock_timestamp() + interval '600 milliseconds'
        LIMIT 101
    ) soon;
    IF near > 100 THEN
        -- Too many to be listed: whoever hears it reads the table.
        told := '*';
    END IF;
    IF near > 0 THEN
        PERFORM pg_notify('jobs', told);
    END IF;
    RETURN NULL;
END
$$;

CREATE OR REPLACE TRIGGER jobs_tell AFTER INSERT ON jobs
REFERENCING NEW TABLE AS enqueued FOR EACH STATEMENT EXECUTE FUNCTION jobs_tell();
