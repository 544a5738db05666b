//! Makes the tables, and changes those of an older program: step by step, without keeping inserts waiting.

use crate::db::{connect, meet, Database, Delay, Links, Session};
use crate::fault::{Error as DbError, POOLER};
use std::error::Error;
use std::time::{Duration, Instant};
use tokio_postgres::error::SqlState;

/// What changes the tables of the version before into those of each version.
const VERSIONS: [&str; 3] = [include_str!("schema/1.sql"), include_str!("schema/2.sql"), include_str!("schema/3.sql")];
/// The least version of PostgreSQL that has all that the statements want.
const LEAST: u32 = 14;
/// How many partitions there are where nobody says another number: it stands for it in the steps.
const USUAL: usize = 64;
const STEP: &str = "\n-- STEP";
/// How long a step waits for a lock each time: inserts that come meanwhile wait as long.
const LOCK: Duration = Duration::from_millis(300);
/// How long it is tried again where others hold locks.
const PATIENCE: Duration = Duration::from_secs(60);

const BEGIN: &str = "CREATE TABLE IF NOT EXISTS jobs_schema (version integer NOT NULL)";
const VERSION: &str = "SELECT coalesce(max(version), 0) FROM jobs_schema";
const COUNT: &str = "SELECT count(*) FROM jobs_partitions";
const ALONE: &str =
    "SELECT pg_try_advisory_lock('pg_namespace'::regclass::oid::int, current_schema()::regnamespace::oid::int)";

/// Refuses what speaks PostgreSQL's protocol and isn't it: its relatives lack what the statements want. A pooler that
/// gives one process to two sessions keeps neither what they have prepared nor what they listen to.
fn fits([(version, process), (_, other)]: &[(String, String); 2]) -> Result<(), DbError> {
    let relative =
        ["CockroachDB", "-YB-", "Redshift", "Greenplum", "Materialize"].iter().find(|it| version.contains(**it));
    let number = version.strip_prefix("PostgreSQL ").and_then(|it| it.split(|it: char| !it.is_ascii_digit()).next());
    let is_known = number.and_then(|it| it.parse().ok()).is_some_and(|it: u32| it >= LEAST);
    if relative.is_some() || !is_known {
        let why = format!("the database has to be PostgreSQL of version {LEAST} or later, and says: {version}");
        return Err(DbError::Refused(why));
    }
    if process == other {
        return Err(DbError::Refused(format!("two sessions have one process of the database{POOLER}")));
    }
    Ok(())
}

pub async fn run(mut database: Database, partitions: Option<usize>) -> Result<(), Box<dyn Error>> {
    fits(&meet(&database).await?)?;
    // An index over a great table takes its time.
    database.statement_timeout = Duration::from_secs(24 * 3_600);
    database.lock_timeout = LOCK;
    let session = connect(&database).await?;
    if let Some(schema) = &database.schema {
        if !session.value("SELECT to_regnamespace($1) IS NOT NULL", &[schema]).await? {
            insist(&session, &format!("CREATE SCHEMA \"{schema}\"")).await?;
        }
    }
    // Two that set up at a time: one waits, without a snapshot that an index would wait for in turn.
    let mut delay = Delay::new();
    while !session.value(ALONE, &[]).await? {
        delay.wait().await;
    }
    insist(&session, BEGIN).await?;
    let (stands, known): (i32, _) = (session.value(VERSION, &[]).await?, VERSIONS.len() as i32);
    if stands > known {
        return Err(format!("the tables have version {stands}, this program knows {known}").into());
    }
    let count = match stands {
        0 => partitions.unwrap_or(USUAL),
        1 => USUAL,
        _ => session.value::<i64>(COUNT, &[]).await? as usize,
    };
    if partitions.is_some_and(|it| it != count) {
        return Err(format!("the tables have {count} partitions, and keep them").into());
    }
    for (version, steps) in (1..).zip(VERSIONS).skip(stands as usize) {
        // What follows the mark on its line says why the step is there.
        for step in steps.split(STEP).filter_map(|it| it.split_once('\n')) {
            insist(&session, &step.1.replace(&USUAL.to_string(), &count.to_string())).await?;
        }
        insist(&session, &format!("INSERT INTO jobs_schema VALUES ({version})")).await?;
    }
    println!("the table jobs stands, of version {known}, with {count} partitions");
    Ok(())
}

/// Runs a step, again and again where others hold a lock that it wants.
async fn insist(session: &Session, step: &str) -> Result<(), DbError> {
    let begun = Instant::now();
    loop {
        match session.batch(step).await {
            Err(error) if error.is_limit() && begun.elapsed() < PATIENCE => tokio::time::sleep(LOCK).await,
            answer => return answer,
        }
    }
}

/// How many partitions the tables have. Those that another version of this program has made are refused. Where there is
/// no database yet, it waits for it.
pub async fn check(links: &Links, database: &Database) -> Result<usize, DbError> {
    match links.until(|| stands(database)).await {
        Err(error) if error.code() == Some(&SqlState::UNDEFINED_TABLE) => {
            Err(DbError::Refused("there are no tables yet: jobs setup".to_owned()))
        }
        count => count,
    }
}

async fn stands(database: &Database) -> Result<usize, DbError> {
    fits(&meet(database).await?)?;
    let session = connect(database).await?;
    let (stands, wanted): (i32, _) = (session.value(VERSION, &[]).await?, VERSIONS.len());
    if stands as usize != wanted {
        let why = format!("the tables have version {stands}, and this program wants {wanted}: jobs setup");
        return Err(DbError::Refused(why));
    }
    Ok(session.value::<i64>(COUNT, &[]).await? as usize)
}

#[cfg(test)]
mod tests {
    use super::*;

    #[test]
    fn relatives_of_postgresql_and_poolers_in_transaction_mode_are_refused_by_name() {
        let fit = |version: &str, other: &str| {
            let refusal = fits(&["7", other].map(|it| (version.to_owned(), it.to_owned()))).err();
            refusal.map_or(String::new(), |it| it.to_string())
        };
        for version in [
            "CockroachDB CCL v23.1.11 (x86_64-pc-linux-gnu, built 2023/09/27)",
            "PostgreSQL 15.2-YB-2.25.0.0-b0 on x86_64-pc-linux-gnu",
            "PostgreSQL 8.0.2 on i686-pc-linux-gnu, compiled by GCC, Redshift 1.0.12103",
            "PostgreSQL 14.4 (Greenplum Database 8.0.0)",
            "PostgreSQL 13.14 on x86_64-pc-linux-gnu",
        ] {
            assert!(fit(version, "8").contains(version));
        }
        assert_eq!(fit("PostgreSQL 15.18 (Debian 15.18-0+deb12u1) on x86_64-pc-linux-gnu", "8"), "");
        assert_eq!(fit("PostgreSQL 18beta1 on x86_64-pc-linux-gnu", "8"), "");
        assert!(fit("PostgreSQL 15.18", "7").contains("pooler in transaction mode"));
    }
}
