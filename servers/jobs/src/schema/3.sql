-- Each step is a transaction of its own, and may run again.

-- STEP: what its jobs would be refused by is refused of a schedule when it is written.
ALTER TABLE jobs_schedules DROP CONSTRAINT IF EXISTS jobs_schedules_fit;
ALTER TABLE jobs_schedules ADD CONSTRAINT jobs_schedules_fit CHECK (
    (kind = '' OR kind ~ '^[A-Za-z0-9_.:-]{1,40}$') AND octet_length(payload) <= 1048576 AND isfinite(next)
) NOT VALID;
CREATE INDEX IF NOT EXISTS jobs_schedules_next ON jobs_schedules (next);

-- STEP: the first time of a schedule after another. Days are looked at until one has a time. Of a local time that comes
-- twice in autumn both are taken where the hour is any.
CREATE OR REPLACE FUNCTION jobs_next(cron text, zone text, since timestamptz) RETURNS timestamptz
LANGUAGE plpgsql STABLE AS $$
DECLARE
    fields text[] := regexp_split_to_array(CASE lower(btrim(cron))
        WHEN '@hourly' THEN '0 * * * *'
        WHEN '@daily' THEN '0 0 * * *'
        WHEN '@midnight' THEN '0 0 * * *'
        WHEN '@weekly' THEN '0 0 * * 0'
        WHEN '@monthly' THEN '0 0 1 * *'
        WHEN '@yearly' THEN '0 0 1 1 *'
        WHEN '@annually' THEN '0 0 1 1 *'
        ELSE lower(btrim(cron)) END, '\s+');
    today date := (since AT TIME ZONE zone)::date;
    minutes integer[];
    hours integer[];
    days integer[];
    months integer[];
    weekdays integer[];
    by_day boolean;
    by_weekday boolean;
    day date;
    found timestamptz;
BEGIN
    IF array_length(fields, 1) <> 5 THEN
        RAISE EXCEPTION 'a schedule has five fields: %', cron;
    END IF;
    -- As the end of a range Sunday is the seventh day.
    fields[4] := jobs_cron_names(fields[4], 'jan feb mar apr may jun jul aug sep oct nov dec', 1);
    fields[5] := jobs_cron_names(replace(fields[5], '-sun', '-7'), 'sun mon tue wed thu fri sat', 0);
    minutes := jobs_cron_field(fields[1], 0, 59);
    hours := jobs_cron_field(fields[2], 0, 23);
    days := jobs_cron_field(fields[3], 1, 31);
    months := jobs_cron_field(fields[4], 1, 12);
    weekdays := jobs_cron_field(fields[5], 0, 7);
    FOR ahead IN 0 .. 9 * 366 LOOP
        day := today + ahead;
        CONTINUE WHEN NOT extract(month FROM day)::integer = ANY (months);
        by_day := extract(day FROM day)::integer = ANY (days);
        by_weekday := ARRAY[extract(dow FROM day)::integer, extract(isodow FROM day)::integer] && weekdays;
        -- Where both days are named, either will do.
        CONTINUE WHEN NOT CASE WHEN fields[3] <> '*' AND fields[5] <> '*' THEN by_day OR by_weekday
            ELSE by_day AND by_weekday END;
        IF (day + 2)::timestamp AT TIME ZONE zone - (day - 1)::timestamp AT TIME ZONE zone = interval '72 hours' THEN
            -- No clock is changed near it.
            SELECT (day + make_interval(mins => min(60 * hour + minute))) AT TIME ZONE zone INTO found
            FROM unnest(hours) hour, unnest(minutes) minute
            WHERE day + make_interval(mins => 60 * hour + minute) > since AT TIME ZONE zone;
        ELSE
            SELECT min(at) INTO found
            FROM (
                -- A local time comes earlier, too, where it was by what the zone's clocks were ahead a day before.
                SELECT CASE WHEN earlier.at AT TIME ZONE zone = local.time AND left(fields[2], 1) = '*' AND earlier.at > since
                    THEN earlier.at ELSE later.at END AS at
                FROM (
                    -- No clock is changed by more than three hours: later ones of the day aren't the first.
                    SELECT hour FROM unnest(hours) hour
                    WHERE day > today OR hour >= extract(hour FROM since AT TIME ZONE zone) - 3 ORDER BY hour LIMIT 8
                ) near, unnest(minutes) minute,
                    LATERAL (SELECT day + make_interval(hours => hour, mins => minute) AS time) local,
                    LATERAL (SELECT local.time AT TIME ZONE zone AS at) later,
                    LATERAL (SELECT later.at - interval '24 hours' AS at) before,
                    LATERAL (SELECT before.at AT TIME ZONE zone - before.at AT TIME ZONE 'UTC' AS it) ahead,
                    LATERAL (SELECT (local.time - ahead.it) AT TIME ZONE 'UTC' AS at) earlier
            ) times
            WHERE at > since;
        END IF;
        IF found IS NOT NULL THEN
            RETURN found;
        END IF;
    END LOOP;
    RAISE EXCEPTION 'a schedule that never comes: %', cron;
END
$$;

-- STEP: a field of a schedule with numbers in place of names.
CREATE OR REPLACE FUNCTION jobs_cron_names(field text, names text, low integer) RETURNS text LANGUAGE plpgsql IMMUTABLE AS $$
DECLARE
    name text;
    number integer := low;
BEGIN
    IF field ~ '[a-z]' THEN
        FOREACH name IN ARRAY string_to_array(names, ' ') LOOP
            field := regexp_replace(field, '\m' || name || '\M', number::text, 'g');
            number := number + 1;
        END LOOP;
    END IF;
    RETURN field;
END
$$;

-- STEP: whoever writes a schedule needn't have the tables' schema in his search path.
CREATE OR REPLACE FUNCTION jobs_plan() RETURNS trigger LANGUAGE plpgsql SET search_path FROM CURRENT AS $$
BEGIN
    NEW.next := jobs_next(NEW.cron, NEW.zone, clock_timestamp());
    RETURN NEW;
END
$$;
CREATE OR REPLACE TRIGGER jobs_plan BEFORE INSERT OR UPDATE OF cron, zone ON jobs_schedules
FOR EACH ROW EXECUTE FUNCTION jobs_plan();

-- STEP: an index whose making was broken off is made again.
DO $$ BEGIN
    IF EXISTS (SELECT FROM pg_index WHERE indexrelid = to_regclass('jobs_running_kind') AND NOT indisvalid) THEN
        DROP INDEX jobs_running_kind;
    END IF;
END $$;

-- STEP: how many jobs of a kind run.
CREATE INDEX CONCURRENTLY IF NOT EXISTS jobs_running_kind ON jobs (kind) WHERE state = 'running';

-- STEP: a kind may be paused, and so many of its jobs run at a time at most.
ALTER TABLE jobs_kinds ADD COLUMN IF NOT EXISTS paused boolean NOT NULL DEFAULT false;
ALTER TABLE jobs_kinds ADD COLUMN IF NOT EXISTS at_most integer CHECK (at_most > 0);
ALTER TABLE jobs_kinds ALTER COLUMN most_delay SET DEFAULT 31536000;

-- STEP: an attempt more can be counted of each job that waits.
ALTER TABLE jobs DROP CONSTRAINT IF EXISTS jobs_attempt_counts;
ALTER TABLE jobs ADD CONSTRAINT jobs_attempt_counts
    CHECK (attempt BETWEEN 0 AND 1000000000 AND (state <> 'waiting' OR attempt < 1000000000)) NOT VALID;

-- STEP: whether a job that has failed so often is dead.
CREATE OR REPLACE FUNCTION jobs_is_last(attempt integer, attempts integer, kind text, otherwise integer) RETURNS boolean
STABLE
BEGIN ATOMIC
    SELECT jobs_is_last.attempt >= least(1000000000, coalesce(
        jobs_is_last.attempts, (SELECT k.attempts FROM jobs_kinds k WHERE k.kind = jobs_is_last.kind), otherwise
    ));
END;

-- STEP: whoever changes a kind has the workers read the table.
CREATE OR REPLACE FUNCTION jobs_tell_kinds() RETURNS trigger LANGUAGE plpgsql SET search_path FROM CURRENT AS $$
BEGIN
    PERFORM pg_notify('jobs_' || 'jobs'::regclass::oid, '*');
    RETURN NULL;
END
$$;
CREATE OR REPLACE TRIGGER jobs_tell_kinds AFTER INSERT OR UPDATE OR DELETE ON jobs_kinds
FOR EACH STATEMENT EXECUTE FUNCTION jobs_tell_kinds();

-- STEP: how many more jobs of a kind may run. Whoever asks has its row until the end of the transaction; nobody waits.
CREATE OR REPLACE FUNCTION jobs_room(named text) RETURNS bigint LANGUAGE plpgsql SET search_path FROM CURRENT AS $$
DECLARE
    most bigint;
BEGIN
    SELECT at_most INTO most FROM jobs_kinds WHERE kind = named FOR NO KEY UPDATE SKIP LOCKED;
    IF NOT FOUND THEN
        RETURN 0;
    END IF;
    RETURN most - (SELECT count(*) FROM jobs WHERE state = 'running' AND kind = named);
END
$$;

-- STEP: how long a job waits for its next attempt: the fourth power of the attempt, times the first delay of its kind.
CREATE OR REPLACE FUNCTION jobs_delay(attempt integer, kind text) RETURNS interval STABLE
BEGIN ATOMIC
    SELECT interval '1 second' * coalesce(
        (SELECT least(power(least(attempt, 1000), 4) * least(k.first_delay, 31536000), k.most_delay)
            FROM jobs_kinds k WHERE k.kind = jobs_delay.kind),
        least(power(least(attempt, 1000), 4), 31536000)
    );
END;

-- STEP: a job that waits or runs is dead at once. Its holder is told at its next word.
CREATE OR REPLACE FUNCTION jobs_cancel(job bigint) RETURNS boolean LANGUAGE plpgsql SET search_path FROM CURRENT AS $$
BEGIN
    UPDATE jobs SET state = 'dead', error = 'cancelled', lease_until = NULL, ended = clock_timestamp()
    WHERE id = job AND state IN ('waiting', 'running');
    IF FOUND THEN
        PERFORM pg_notify('jobs_' || 'jobs'::regclass::oid, 'cancelled ' || job);
        RETURN true;
    END IF;
    RETURN false;
END
$$;

-- STEP: brings dead jobs back: they wait again, with some attempts more, whose numbers go on, since holders of the old ones may
-- still have a word. Cancelled ones come back only by their ids. Of all that are dead of a key the last comes back.
CREATE OR REPLACE FUNCTION jobs_retry(ids bigint[] DEFAULT NULL, more integer DEFAULT 25) RETURNS bigint
LANGUAGE plpgsql SET search_path FROM CURRENT AS $$
DECLARE
    count bigint;
BEGIN
    UPDATE jobs SET state = 'waiting', due = clock_timestamp(), attempts = attempt + more
    WHERE state = 'dead' AND id = ANY (ARRAY(
        SELECT id FROM jobs j
        WHERE state = 'dead' AND CASE WHEN ids IS NULL THEN error IS DISTINCT FROM 'cancelled' ELSE id = ANY (ids) END
            AND (unique_key IS NULL OR NOT EXISTS (
                SELECT FROM jobs o WHERE o.kind = j.kind AND o.unique_key = j.unique_key AND (
                    o.state IN ('waiting', 'running')
                    OR ids IS NULL AND o.state = 'dead' AND o.id > j.id AND o.error IS DISTINCT FROM 'cancelled'
                )
            ))
        FOR NO KEY UPDATE SKIP LOCKED
    ));
    GET DIAGNOSTICS count = ROW_COUNT;
    RETURN count;
END
$$;

-- STEP: the workers of this table alone are told, by a channel of its number. What doesn't fit is read in the table.
CREATE OR REPLACE FUNCTION jobs_tell() RETURNS trigger LANGUAGE plpgsql AS $$
DECLARE
    near integer;
    told text;
BEGIN
    SELECT count(*), string_agg(concat_ws(' ', id, (extract(epoch FROM due) * 1000000)::bigint, priority, kind), ',')
    INTO near, told
    FROM (
        SELECT id, due, priority, kind FROM enqueued
        WHERE state = 'waiting' AND due < clock_timestamp() + interval '600 milliseconds'
        LIMIT 101
    ) soon;
    IF near > 100 OR octet_length(told) > 7999 THEN
        told := '*';
    END IF;
    IF near > 0 THEN
        PERFORM pg_notify('jobs_' || TG_RELID, told);
    END IF;
    RETURN NULL;
END
$$;

-- STEP: a worker comes, or comes back after it was silent. It is told of one of the other sort that lives, since a holder
-- would have jobs beside the effect of the same jobs. One comes after another, and a renewal takes two seconds at most.
CREATE OR REPLACE FUNCTION jobs_enter(number bigint, its_name text, its_address text, seconds double precision)
RETURNS text LANGUAGE plpgsql SET search_path FROM CURRENT AS $$
DECLARE
    other text;
BEGIN
    PERFORM pg_advisory_xact_lock('jobs_workers'::regclass::oid::bigint);
    SELECT name || coalesce(' at ' || nullif(address, '-'), '') INTO other FROM jobs_workers
    WHERE until > clock_timestamp() - interval '2 seconds' AND worker <> number AND (address = '-') <> (its_address = '-');
    IF FOUND THEN
        RETURN other;
    END IF;
    INSERT INTO jobs_workers (worker, name, address, pid, ready, until) VALUES
        (number, its_name, its_address, pg_backend_pid(), '{}', clock_timestamp() + seconds * interval '1 second')
    ON CONFLICT (worker) DO UPDATE SET pid = EXCLUDED.pid, until = EXCLUDED.until;
    RETURN NULL;
END
$$;
