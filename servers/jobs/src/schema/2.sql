-- Each step is a transaction of its own, and may run again.

-- STEP: a job that runs has a lease that ends. One that somebody has made without is given out again.
UPDATE jobs SET lease_until = now() WHERE state = 'running' AND NOT (lease_until IS NOT NULL AND isfinite(lease_until));

-- STEP: the table isn't read while inserts wait for this step.
ALTER TABLE jobs DROP CONSTRAINT IF EXISTS jobs_lease_ends;
ALTER TABLE jobs ADD CONSTRAINT jobs_lease_ends
    CHECK (state <> 'running' OR lease_until IS NOT NULL AND isfinite(lease_until)) NOT VALID;

-- STEP
ALTER TABLE jobs VALIDATE CONSTRAINT jobs_lease_ends;

-- STEP: the workers that live, each by a number that it has drawn.
CREATE TABLE IF NOT EXISTS jobs_workers (
    worker bigint PRIMARY KEY,
    name text NOT NULL,
    address text NOT NULL,
    -- The session that it renews its terms by.
    pid integer NOT NULL,
    -- The kinds of which jobs are ready there and wait for a holder.
    ready text[] NOT NULL,
    until timestamptz NOT NULL
) WITH (fillfactor = 50);

-- STEP: who owns each partition. There is one for each value of jobs.partition.
CREATE TABLE IF NOT EXISTS jobs_partitions (
    partition smallint PRIMARY KEY,
    owner bigint,
    -- Rises by one when a worker takes the partition. Each write of a job or a lease names it, so that a worker that
    -- was cut off changes nothing once another has taken the partition.
    term bigint NOT NULL DEFAULT 0,
    -- Nobody else takes it before.
    until timestamptz NOT NULL DEFAULT '-infinity'
) WITH (fillfactor = 10, autovacuum_vacuum_threshold = 1000);
INSERT INTO jobs_partitions (partition) SELECT generate_series(0, 64 - 1) ON CONFLICT DO NOTHING;

-- STEP: what a job is, beside its payload. A holder takes the kinds that it names.
ALTER TABLE jobs ADD COLUMN IF NOT EXISTS kind text NOT NULL DEFAULT '';
-- Of jobs that are due, those of a higher priority come first.
ALTER TABLE jobs ADD COLUMN IF NOT EXISTS priority smallint NOT NULL DEFAULT 0;
-- After so many attempts it is dead. Where it is null, its kind says it, and where that doesn't, its worker.
ALTER TABLE jobs ADD COLUMN IF NOT EXISTS attempts integer;
-- There is one job of a kind and a key that waits or runs: INSERT .. ON CONFLICT DO NOTHING.
ALTER TABLE jobs ADD COLUMN IF NOT EXISTS unique_key text;
ALTER TABLE jobs DROP CONSTRAINT IF EXISTS jobs_kind_is_plain;
ALTER TABLE jobs ADD CONSTRAINT jobs_kind_is_plain CHECK (kind = '' OR kind ~ '^[A-Za-z0-9_.:-]{1,40}$') NOT VALID;

-- STEP
ALTER TABLE jobs VALIDATE CONSTRAINT jobs_kind_is_plain;

-- STEP: an index whose making was broken off is made again.
DO $$ BEGIN
    IF EXISTS (SELECT FROM pg_index WHERE indexrelid = to_regclass('jobs_unique') AND NOT indisvalid) THEN
        DROP INDEX jobs_unique;
    END IF;
END $$;

-- STEP
CREATE UNIQUE INDEX CONCURRENTLY IF NOT EXISTS jobs_unique ON jobs (kind, unique_key)
    WHERE unique_key IS NOT NULL AND state IN ('waiting', 'running');

-- STEP: how the attempts of a kind are spaced, and how many there are.
CREATE TABLE IF NOT EXISTS jobs_kinds (
    kind text PRIMARY KEY,
    attempts integer CHECK (attempts > 0),
    -- After the first attempt so many seconds, twice as many after each other, and never more than the most.
    first_delay double precision NOT NULL DEFAULT 1 CHECK (first_delay >= 0),
    most_delay double precision NOT NULL DEFAULT 600 CHECK (most_delay BETWEEN 0 AND 31536000)
);

-- STEP: an index whose making was broken off is made again.
DO $$ BEGIN
    IF EXISTS (SELECT FROM pg_index WHERE indexrelid = to_regclass('jobs_over') AND NOT indisvalid) THEN
        DROP INDEX jobs_over;
    END IF;
END $$;

-- STEP: what is over, for whoever prunes it or looks at the dead.
CREATE INDEX CONCURRENTLY IF NOT EXISTS jobs_over ON jobs (state, ended) WHERE state IN ('done', 'dead');

-- STEP: jobs that are enqueued again and again, by the workers: each time once, whatever dies.
CREATE TABLE IF NOT EXISTS jobs_schedules (
    name text PRIMARY KEY,
    -- Minute, hour, day of the month, month and weekday (0 and 7 are Sunday): *, 5, 1-5, */10, or some of them between
    -- commas.
    cron text NOT NULL,
    zone text NOT NULL DEFAULT 'UTC',
    kind text NOT NULL DEFAULT '',
    payload text NOT NULL DEFAULT '',
    priority smallint NOT NULL DEFAULT 0,
    attempts integer,
    -- When its next job is due. What it missed while no worker lived is enqueued once.
    next timestamptz NOT NULL
);

-- STEP: the numbers of a field of a schedule.
CREATE OR REPLACE FUNCTION jobs_cron_field(field text, low integer, high integer) RETURNS integer[]
LANGUAGE plpgsql IMMUTABLE AS $$
DECLARE
    part text;
    words text[];
    first integer;
    last integer;
    step integer;
    found integer[] := '{}';
BEGIN
    FOREACH part IN ARRAY string_to_array(field, ',') LOOP
        words := regexp_match(part, '^(\*|(\d{1,2})(?:-(\d{1,2}))?)(?:/(\d{1,2}))?$');
        first := coalesce(words[2]::integer, low);
        last := coalesce(words[3]::integer, CASE WHEN words[1] = '*' OR words[4] IS NOT NULL THEN high ELSE first END);
        step := coalesce(words[4]::integer, 1);
        IF words IS NULL OR first < low OR last > high OR first > last OR step < 1 THEN
            RAISE EXCEPTION 'a schedule has no field %, of % to %', field, low, high;
        END IF;
        found := found || ARRAY(SELECT generate_series(first, last, step));
    END LOOP;
    RETURN found;
END
$$;
