//! The statements. Each is one transaction, and each changes a job only where its row says that it may, in a partition
//! that its worker owns: `$1` is the worker's number, and `$2` its terms by partition. Rows that others have locked are
//! left out, so that nobody waits for them.
//!
//! Jobs that are named are looked for by their ids. Their state stands there as `state || ''`, which no partial index fits:
//! where the statistics are old, or many are named, the planner would take such an index, and read all that is due or over.

/// Of the partitions that the worker owns by the terms that it knows, what nobody has locked. It stands in each statement,
/// since the database would plan a function of SQL again at each call.
macro_rules! owned {
    () => {
        "partition = ANY (ARRAY(SELECT p.partition FROM jobs_partitions p
            WHERE p.owner = $1::bigint AND p.term = ($2::bigint[])[p.partition + 1]))
    FOR NO KEY UPDATE SKIP LOCKED"
    };
}

/// Whether others may take a partition, or don't count a worker any more: its term is over, or it was silent for so long
/// that less than some seconds are left of it, and its session has ended.
macro_rules! free {
    ($owner:literal, $left:literal) => {
        concat! {
            "until < now() OR until < now() + ", $left, "::float8 * interval '1 second' AND NOT EXISTS (",
            "SELECT FROM jobs_workers w JOIN pg_stat_activity a ON a.pid = w.pid WHERE w.worker = ", $owner, ")"
        }
    };
}

/// What waits in some partitions, is due since a time of each and within a horizon and isn't of some kinds, with the clock,
/// the number of workers and of those before this one, the partitions that nobody owns, the terms of this worker, the others
/// that have jobs for holders, and the kinds that are paused or bounded, and whether more of them may run, so that a worker
/// with nothing to do asks for one thing alone.
pub const READ: &str = concat! { "
SELECT clock_timestamp() - pg_postmaster_start_time() < interval '3 seconds',
    (SELECT ARRAY[count(*), count(*) FILTER (WHERE o.worker < $1)] FROM jobs_workers o
        WHERE NOT (", free!("o.worker", "$5"), ")),
    (SELECT coalesce(array_agg(partition), '{}') FROM jobs_partitions
        WHERE ", free!("owner", "$5"), "),
    (SELECT array_agg(CASE WHEN owner = $1::bigint THEN term ELSE 0 END ORDER BY partition) FROM jobs_partitions),
    (SELECT array_agg(concat_ws(' ', p.partition, w.address) || '/' || array_to_string(w.ready, ' '))
        FROM jobs_workers w JOIN LATERAL (
            SELECT partition FROM jobs_partitions WHERE owner = w.worker ORDER BY partition LIMIT 1
        ) p ON true WHERE w.worker <> $1 AND w.ready <> '{}' AND w.until > now()),
    waiting.ids, waiting.dues, waiting.priorities, waiting.kinds,
    (SELECT coalesce(array_agg(CASE WHEN paused THEN '-' WHEN at_most > (
            SELECT count(*) FROM jobs WHERE state = 'running' AND jobs.kind = k.kind
        ) THEN '<' ELSE '=' END || kind), '{}') FROM jobs_kinds k WHERE paused OR at_most IS NOT NULL),
    -- When all else of the answer is known.
    clock_timestamp()
FROM (
    SELECT coalesce(array_agg(j.id), '{}') AS ids, coalesce(array_agg(j.due), '{}') AS dues,
        coalesce(array_agg(j.priority), '{}') AS priorities, coalesce(array_agg(j.kind), '{}') AS kinds
    FROM unnest($2::smallint[], $6::timestamptz[]) AS p(partition, since) CROSS JOIN LATERAL (
        SELECT id, due, priority, kind FROM jobs
        WHERE state = 'waiting' AND jobs.partition = p.partition AND due >= p.since
            AND due < now() + $3::float8 * interval '1 second' AND kind <> ALL ($7::text[])
        ORDER BY due LIMIT $4::bigint
    ) j
) waiting" };

/// Whether the tables are those of a worker.
pub const KNOWN: &str = "SELECT FROM jobs_workers WHERE worker = $1::bigint";
/// Tells who keeps this worker from coming, where one does.
pub const ENTER: &str = "SELECT jobs_enter($1::bigint, $2::text, $3::text, $4::float8)";
/// The worker lives, and its terms go on. One that was silent for too long has to come again.
pub const RENEW: &str = "
WITH living AS (
    UPDATE jobs_workers SET pid = pg_backend_pid(), ready = $3::text[], until = now() + $2::float8 * interval '1 second'
    WHERE worker = $1::bigint AND until > now()
    RETURNING worker
), renewed AS (
    UPDATE jobs_partitions SET until = now() + $2::float8 * interval '1 second'
    WHERE EXISTS (SELECT FROM living)
        AND partition = ANY (ARRAY(SELECT partition FROM jobs_partitions WHERE owner = $1 FOR NO KEY UPDATE SKIP LOCKED))
    RETURNING partition, term
)
SELECT EXISTS (SELECT FROM living), coalesce(array_agg(partition), '{}'), coalesce(array_agg(term), '{}') FROM renewed";

/// Takes partitions that nobody owns any more: a term begins.
pub const TAKE_PARTITIONS: &str = concat! { "
UPDATE jobs_partitions SET owner = $1::bigint, term = term + 1, until = now() + $3::float8 * interval '1 second'
WHERE partition = ANY (ARRAY(
    SELECT partition FROM jobs_partitions WHERE partition = ANY($2::smallint[]) AND (", free!("owner", "$4"), ")
    FOR NO KEY UPDATE SKIP LOCKED
))
RETURNING partition, term" };
/// Lets partitions go: whoever comes first takes them.
pub const LET_GO: &str = "
UPDATE jobs_partitions SET owner = NULL, until = '-infinity'
WHERE partition = ANY (ARRAY(
    SELECT partition FROM jobs_partitions WHERE partition = ANY($2::smallint[]) AND owner = $1::bigint
    FOR NO KEY UPDATE SKIP LOCKED
))";
pub const LEAVE: &str = "DELETE FROM jobs_workers WHERE worker = $1::bigint";
/// The address of the worker that owns a partition and serves holders.
pub const OWNER: &str = "
SELECT w.address FROM jobs_partitions p JOIN jobs_workers w ON w.worker = p.owner
WHERE p.partition = $1::smallint AND p.until > now() AND w.address <> '-'";

/// The leases of some partitions: all of them, or those that have ended.
pub const LEASES: &str = "
SELECT id, attempt, lease_until FROM jobs
WHERE state = 'running' AND partition = ANY($1::smallint[]) AND ($2::bool OR lease_until <= now())";
/// The leases of some jobs, and those that were cancelled, which have none.
pub const LEASES_OF: &str = "
SELECT id, attempt, lease_until FROM jobs
WHERE id = ANY($1::bigint[]) AND (state || '' = 'running' OR state || '' = 'dead' AND error = 'cancelled')";

/// Gives jobs out that are of some kinds, of any where none is named, each with a lease: as many as begin within the first
/// 4 MiB of their payloads, and of some kinds as many as may run.
pub const TAKE: &str = concat! { "
WITH sized AS MATERIALIZED (
    SELECT id, kind, sum(octet_length(payload)) OVER (ORDER BY due, id) - octet_length(payload) AS begins,
        row_number() OVER (PARTITION BY kind ORDER BY priority DESC, due, id) AS place
    FROM jobs
    WHERE id = ANY($3::bigint[]) AND state || '' = 'waiting' AND due <= now()
        AND ($5::text[] = '{}' OR kind = ANY($5::text[]))
), bounded AS MATERIALIZED (
    SELECT kind, jobs_room(kind) AS room FROM unnest($6::text[]) kind
), free AS MATERIALIZED (
    SELECT id FROM jobs
    WHERE id = ANY (ARRAY(
            SELECT id FROM sized LEFT JOIN bounded USING (kind) WHERE begins < 4194304 AND place <= coalesce(room, place)
        )) AND state || '' = 'waiting' AND due <= now() AND ", owned!(), "
)
UPDATE jobs SET state = 'running', attempt = attempt + 1, started = clock_timestamp(), ended = NULL,
    lease_until = date_trunc('milliseconds', now() + $4::float8 * interval '1 second')
WHERE id = ANY (ARRAY(SELECT id FROM free))
RETURNING id, attempt, lease_until, payload, started, due" };

/// Begins the statement that takes jobs and has an effect at once; the effect stands within. Of a kind that is bounded one
/// statement at a time has effects, one after another: whoever asks for its room has its row.
pub const BEGIN_EFFECT: &str = concat! { "
WITH jobs_free AS MATERIALIZED (
    SELECT id FROM jobs
    WHERE id = ANY($3::bigint[]) AND state || '' = 'waiting' AND due <= now()
        AND ($4::text[] = '{}' OR kind <> ALL ($4::text[]) OR jobs_room(kind) > 0) AND ", owned!(), "
), taken AS (
    UPDATE jobs SET state = 'done', attempt = attempt + 1, started = clock_timestamp(), ended = clock_timestamp()
    WHERE id = ANY (ARRAY(SELECT id FROM jobs_free))
    RETURNING id, due, payload, attempt, started, kind
), effect AS MATERIALIZED (" };
/// Ends it. The rows of the effect are counted, since a SELECT within WITH that nobody reads isn't run.
pub const END_EFFECT: &str = ") SELECT started, due, attempt FROM taken, (SELECT count(*) FROM effect) it";
/// Ends it where the effect has no rows to read: an INSERT, UPDATE or DELETE without RETURNING is run anyway.
pub const END_EFFECT_WITHOUT_ROWS: &str = ") SELECT started, due, attempt FROM taken";

/// An attempt of a job that waits has failed: it waits longer each time, and after the last attempt it is dead.
pub const FAIL_WAITING: &str = concat! { "
WITH free AS MATERIALIZED (
    SELECT id FROM jobs WHERE id = $3::bigint AND state || '' = 'waiting' AND due <= now() AND ", owned!(), "
)
UPDATE jobs SET attempt = attempt + 1, started = clock_timestamp(), ended = clock_timestamp(), error = $4::text,
    state = CASE WHEN jobs_is_last(attempt + 1, attempts, kind, $5) THEN 'dead' ELSE 'waiting' END,
    due = CASE WHEN jobs_is_last(attempt + 1, attempts, kind, $5) THEN due
        ELSE now() + jobs_delay(attempt + 1, kind) END
WHERE id = ANY (ARRAY(SELECT id FROM free))
RETURNING state" };

/// Holders are done. A second word of the same attempt changes nothing and is answered as the first. A job comes once
/// more as it stood before: what didn't end then, since another has locked it, isn't the holder's fault.
pub const DONE: &str = concat! { "
WITH free AS MATERIALIZED (
    SELECT id FROM unnest($3::bigint[], $4::int[]) AS v(id, attempt) JOIN jobs USING (id, attempt)
    WHERE state || '' = 'running' AND ", owned!(), "
), done AS (
    UPDATE jobs SET state = 'done', lease_until = NULL, ended = clock_timestamp()
    WHERE id = ANY (ARRAY(SELECT id FROM free))
    RETURNING id, state
)
SELECT id, state FROM done
UNION ALL
SELECT id, state FROM unnest($3::bigint[], $4::int[]) AS v(id, attempt) JOIN jobs USING (id, attempt)
WHERE state IN ('running', 'done')" };

/// Holders have failed. A job comes once more as it stood before, as of those that are done.
pub const FAIL: &str = concat! { "
WITH free AS MATERIALIZED (
    SELECT id, v.error
    FROM unnest($3::bigint[], $4::int[], $5::text[]) AS v(id, attempt, error) JOIN jobs USING (id, attempt)
    WHERE state || '' = 'running' AND ", owned!(), "
), failed AS (
    UPDATE jobs j SET lease_until = NULL, ended = clock_timestamp(), error = free.error,
        state = CASE WHEN jobs_is_last(j.attempt, j.attempts, j.kind, $6) THEN 'dead' ELSE 'waiting' END,
        due = CASE WHEN jobs_is_last(j.attempt, j.attempts, j.kind, $6) THEN j.due
            ELSE now() + jobs_delay(j.attempt, j.kind) END
    FROM free WHERE j.id = free.id
    RETURNING j.id, j.state
)
SELECT id, state FROM failed
UNION ALL
SELECT id, state FROM unnest($3::bigint[], $4::int[]) AS v(id, attempt) JOIN jobs USING (id, attempt)
WHERE state || '' = 'running'" };

/// Leases have ended: their jobs wait again, and after the last attempt they are dead.
pub const EXPIRE: &str = concat! { "
WITH free AS MATERIALIZED (
    SELECT id FROM unnest($3::bigint[], $4::int[]) AS v(id, attempt) JOIN jobs USING (id, attempt)
    WHERE state || '' = 'running' AND lease_until <= now() AND ", owned!(), "
)
UPDATE jobs SET lease_until = NULL, ended = clock_timestamp(), error = 'the lease ended',
    state = CASE WHEN jobs_is_last(attempt, attempts, kind, $5) THEN 'dead' ELSE 'waiting' END
WHERE id = ANY (ARRAY(SELECT id FROM free))
RETURNING id, state, due, priority, kind" };

/// Writes what holders have extended in memory, and tells which leases stand in the table now.
pub const WRITE_LEASES: &str = concat! { "
WITH free AS MATERIALIZED (
    SELECT id, v.until
    FROM unnest($3::bigint[], $4::int[], $5::timestamptz[]) AS v(id, attempt, until) JOIN jobs USING (id, attempt)
    WHERE state || '' = 'running' AND ", owned!(), "
)
UPDATE jobs j SET lease_until = greatest(j.lease_until, free.until) FROM free WHERE j.id = free.id
RETURNING j.id" };
