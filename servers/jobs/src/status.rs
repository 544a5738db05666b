//! What an operator wants to see, from the database alone.

use crate::db::{connect, Database};
use std::error::Error;

const OWNERS: &str = "
SELECT w.name, w.address, count(p.owner)
FROM jobs_workers w LEFT JOIN jobs_partitions p ON p.owner = w.worker AND p.until > now()
WHERE w.until > now() GROUP BY w.worker
UNION ALL SELECT '(nobody)', '', count(*) FROM jobs_partitions WHERE owner IS NULL OR until <= now() HAVING count(*) > 0
ORDER BY 1, 2";

const COUNTS: &str = "
SELECT format('waiting %s (%s due), running %s, done %s, dead %s', waiting, due, running,
    -- Of very many the database's own estimate will do.
    CASE WHEN done > 10000 THEN 'about ' || greatest(about - waiting - running - dead, done) ELSE done::text END, dead)
FROM (SELECT count(*) AS waiting, count(*) FILTER (WHERE due <= now()) AS due FROM jobs WHERE state = 'waiting') a,
    (SELECT count(*) AS running FROM jobs WHERE state = 'running') b,
    (SELECT count(*) AS done FROM (SELECT FROM jobs WHERE state = 'done' LIMIT 10001) it) c,
    (SELECT count(*) AS dead FROM jobs WHERE state = 'dead') d,
    (SELECT greatest(reltuples, 0)::bigint AS about FROM pg_class WHERE oid = 'jobs'::regclass) e";

pub async fn run(database: &Database) -> Result<(), Box<dyn Error>> {
    let session = connect(database).await?;
    println!("{:<24} {:<22} partitions", "worker", "address");
    for row in session.query(OWNERS, &[]).await? {
        let (name, address, owned): (&str, &str, i64) = (row.get(0), row.get(1), row.get(2));
        println!("{name:<24} {address:<22} {owned}");
    }
    println!("\n{}", session.value::<String>(COUNTS, &[]).await?);
    Ok(())
}
