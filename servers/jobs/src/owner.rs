//! Which partitions a worker owns, by rows of a table: it renews its terms, takes partitions up to a fair share,
//! reads what is due soon, and is told the rest.

use crate::db::{tell, Delay, Param, Session};
use crate::fault::Error;
use crate::leases::{self, micros, running, time};
use crate::partitions::{Running, Waiting, WAITING_ROOM};
use crate::ready::Kinds;
use crate::sql;
use crate::worker::Worker;
use std::sync::Arc;
use std::time::{Duration, Instant, SystemTime};
use tokio::sync::mpsc::{unbounded_channel, UnboundedReceiver};
use tokio::time::timeout;
use tokio_postgres::Row;

/// How long a worker owns a partition without a word of it, as long as its session stands.
const TERM: Duration = Duration::from_secs(5);
/// How long it owns one after its last word at least, also where its session has ended.
const SURE: Duration = Duration::from_millis(1_500);
/// How often it gives a word.
const RENEW_EVERY: Duration = Duration::from_millis(700);
/// By how much sooner a worker takes a term to be over, since its clock may be slower than the database's.
const DRIFT: Duration = Duration::from_millis(50);
/// The most that a statement of the owner's session may take, so that there is time for another before a term is over.
const STATEMENT: Duration = Duration::from_secs(2);
/// How often the table is read.
const READ_EVERY: Duration = Duration::from_millis(400);
/// The least time from one reading to the next, however many notifications ask for one.
const READ_AFTER: Duration = Duration::from_millis(20);
/// Every how many readings a partition is read whole.
const WHOLE: usize = 24;
/// What is due within it is held in memory. Each reading gives what waits of it once more, so it is no longer than a partition
/// may have to wait for its next one.
const HORIZON: Duration = Duration::from_secs(1);
/// How often the table is searched for leases that have ended and that no worker knows.
const SEARCH_EVERY: Duration = Duration::from_secs(10);
/// How long one who has lost a session leaves what is free to others, who may have lost theirs by the same outage.
const MODESTY: Duration = Duration::from_secs(3);
/// How long partitions that are let go wait for the write of their leases.
const LAST_WRITE: Duration = Duration::from_secs(1);
const UNLIKE: &str = "workers that serve holders and workers that have an effect never do so together";

/// Owns partitions by one session after another, until the worker ends.
///
/// # Errors
/// A worker of the other sort lives.
pub async fn run(worker: Arc<Worker>) -> Result<(), Error> {
    let mut delay = Delay::new();
    let mut modesty = Duration::ZERO;
    while !worker.released() {
        let begun = Instant::now();
        let error = match own(&worker, modesty).await {
            Err(error) if !matches!(error, Error::Refused(_)) => error,
            answer => return answer,
        };
        modesty = MODESTY;
        worker.metrics.database_errors.add(1);
        if begun.elapsed() > TERM {
            delay = Delay::new();
        }
        tell(format_args!("can't renew its terms, and tries again after {:?}: {error}", delay.wait().await));
    }
    Ok(())
}

/// Owns partitions by one session, which takes no others at first.
async fn own(worker: &Worker, modesty: Duration) -> Result<(), Error> {
    let (sender, mut told) = unbounded_channel();
    let mut database = worker.options.database.named(&format!("jobs {}", worker.options.name));
    database.statement_timeout = database.statement_timeout.min(STATEMENT);
    database.lock_timeout = database.lock_timeout.min(STATEMENT);
    let session = Session::open(&database, &worker.metrics, sender).await?;
    let table: i64 = session.value("SELECT 'jobs'::regclass::oid::bigint", &[]).await?;
    // What is due first is read in the order of the index, however few rows the database takes all that is due for.
    session.batch(&format!("LISTEN jobs_{table}; SET enable_bitmapscan = off")).await?;
    let mut owner = Owner {
        worker,
        session,
        modest_until: Instant::now() + modesty,
        renewed: None,
        searched: Instant::now(),
        has_more: false,
        readings: 0,
        of: 1,
        left_out: Vec::new(),
    };
    loop {
        let read_at = Instant::now();
        owner.renew().await?;
        owner.read().await?;
        owner.search().await?;
        owner.wait(&mut told, read_at).await;
        if worker.released() {
            return owner.leave().await;
        }
    }
}

struct Owner<'w> {
    worker: &'w Worker,
    session: Session,
    modest_until: Instant,
    renewed: Option<Instant>,
    searched: Instant,
    /// It has just got partitions that it hasn't read.
    has_more: bool,
    readings: usize,
    /// One partition of so many is read at a time: more than one where the database was too slow.
    of: usize,
    /// The kinds that the next reading leaves out.
    left_out: Vec<String>,
}

impl Owner<'_> {
    /// Says that this worker lives, and that its terms go on.
    async fn renew(&mut self) -> Result<(), Error> {
        if self.renewed.is_some_and(|it| it.elapsed() < RENEW_EVERY) {
            return Ok(());
        }
        let (worker, ready) = (self.worker, self.worker.ready.kinds());
        loop {
            let sent = Instant::now();
            let row = self.session.query(sql::RENEW, &[&worker.number, &TERM.as_secs_f64(), &ready]).await?.remove(0);
            if row.get::<_, bool>(0) {
                let (partitions, terms): (Vec<i16>, Vec<i64>) = (row.get(1), row.get(2));
                for (partition, term) in partitions.into_iter().zip(terms) {
                    // The database counted from a moment after it was asked.
                    worker.partitions.renew(partition as usize, term, sent + SURE - DRIFT);
                }
                self.renewed = Some(Instant::now());
                return Ok(());
            }
            self.enter().await?;
        }
    }

    /// Comes, or comes back after it was silent for too long. One of the other sort may have been killed just now: it counts
    /// until its term is over.
    async fn enter(&mut self) -> Result<(), Error> {
        let (worker, until) = (self.worker, Instant::now() + TERM + 2 * STATEMENT);
        loop {
            let params: [Param<'_>; 4] = [&worker.number, &worker.options.name, &worker.address, &TERM.as_secs_f64()];
            match self.session.value::<Option<String>>(sql::ENTER, &params).await? {
                None => return Ok(()),
                Some(other) if worker.released() || Instant::now() > until => {
                    return Err(Error::Refused(format!("{other} works at this table: {UNLIKE}")));
                }
                Some(_) => tokio::time::sleep(READ_EVERY).await,
            }
        }
    }

    /// Takes those of some partitions that are free.
    async fn take(&mut self, partitions: &[usize]) -> Result<(), Error> {
        let (wanted, sent) = (numbers(partitions), Instant::now());
        let params: [Param<'_>; 4] = [&self.worker.number, &wanted, &TERM.as_secs_f64(), &left_over()];
        let rows = self.session.query(sql::TAKE_PARTITIONS, &params).await?;
        let taken: Vec<_> = rows.iter().map(|row| (row.get::<_, i16>(0) as usize, row.get(1))).collect();
        self.begin(&taken).await?;
        for (partition, term) in taken {
            self.worker.partitions.renew(partition, term, sent + SURE - DRIFT);
        }
        Ok(())
    }

    /// Holds partitions by their terms, with the leases that stand in the table.
    async fn begin(&mut self, terms: &[(usize, i64)]) -> Result<(), Error> {
        if terms.is_empty() {
            return Ok(());
        }
        let partitions: Vec<usize> = terms.iter().map(|it| it.0).collect();
        let leases = self.leases(&partitions, true).await?;
        terms.iter().for_each(|(partition, term)| self.worker.partitions.own(*partition, *term, &leases));
        self.has_more = true;
        Ok(())
    }

    async fn leases(&self, partitions: &[usize], all: bool) -> Result<Vec<Running>, Error> {
        let rows = self.session.query(sql::LEASES, &[&numbers(partitions), &all]).await?;
        Ok(rows.iter().map(running).collect())
    }

    /// Reads what is due soon, and comes closer to its fair share.
    async fn read(&mut self) -> Result<(), Error> {
        let worker = self.worker;
        // Each partition is read whole from time to time: nothing depends on a notification.
        self.readings += 1;
        let in_turn = |it: &usize| it % WHOLE == self.readings % WHOLE;
        worker.partitions.read_whole((0..worker.partitions.count()).filter(in_turn));
        let (asked, since) = worker.partitions.to_read(self.of, self.readings);
        let partitions = numbers(&asked);
        let since: Vec<SystemTime> = since.into_iter().map(time).collect();
        // The fewer partitions are read at a time, the longer each waits for its next reading.
        let horizon = (HORIZON * self.of as u32).as_secs_f64();
        let (most, sent) = (WAITING_ROOM as i64, worker.clock.uptime());
        let params: [Param<'_>; 7] =
            [&worker.number, &partitions, &horizon, &most, &left_over(), &since, &self.left_out];
        let row = match self.session.query(sql::READ, &params).await {
            Err(error) if error.is_limit() && self.of < worker.partitions.count() => {
                self.of *= 4;
                worker.partitions.read_whole(asked);
                return Ok(());
            }
            answer => answer?.remove(0),
        };
        self.of = (self.of / 2).max(1);
        let now = micros(row.get(10));
        worker.clock.note(sent, now);
        let kinds = Kinds::of(row.get(9));
        worker.partitions.note_read(&asked, waiting(&row), &kinds.bounded, now);
        self.keep_to(kinds);
        worker.note_elsewhere(row.get::<_, Option<Vec<&str>>>(4).unwrap_or_default());
        let (waiting, leases) = worker.partitions.counts();
        worker.metrics.indexed.set(waiting as u64);
        worker.metrics.leases.set(leases as u64);
        self.agree(row.get(3)).await?;
        let (is_new, workers, free): (bool, Vec<i64>, Vec<i16>) = (row.get(0), row.get(1), row.get(2));
        let share = fair_share(worker.partitions.count(), workers[0].max(1) as usize, workers[1] as usize);
        self.balance(is_new, share, free).await
    }

    /// Keeps to what the table says of kinds. What is paused isn't held, nor read; of what is bounded few are, and more are
    /// read once those have begun: it doesn't fill the room of others.
    fn keep_to(&mut self, kinds: Kinds) {
        let partitions = &self.worker.partitions;
        partitions.forget_kinds(&kinds.paused);
        self.worker.ready.keep_to(&kinds);
        let mut left_out = partitions.waiting_of(&kinds.bounded);
        left_out.extend(kinds.paused);
        if self.left_out.iter().any(|it| !left_out.contains(it)) {
            partitions.read_whole(0..partitions.count());
        }
        self.left_out = left_out;
    }

    /// Comes to the terms that the table has: what others have taken is lost, and what was taken by a statement whose
    /// answer was lost is begun.
    async fn agree(&mut self, terms: Vec<i64>) -> Result<(), Error> {
        let known = self.worker.partitions.terms().into_iter().zip(terms).enumerate();
        let changed = known.filter(|(_, (known, term))| known != term).map(|(partition, (_, term))| (partition, term));
        let (lost, begun): (Vec<_>, Vec<_>) = changed.partition(|it| it.1 == 0);
        lost.iter().for_each(|it| self.worker.partitions.lose(it.0));
        self.begin(&begun).await
    }

    /// Lets go what is above its share, and takes what is free below it. Where the database has just started, what is
    /// free is left to those who had it before.
    async fn balance(&mut self, is_new: bool, share: usize, free: Vec<i16>) -> Result<(), Error> {
        let owned = self.worker.partitions.owned();
        if self.worker.is_ending() {
            return Ok(());
        }
        if owned.len() > share {
            self.let_go(&owned[share..]).await?;
        } else if owned.len() < share && !is_new && Instant::now() > self.modest_until {
            let mut free: Vec<usize> = free.iter().map(|it| *it as usize).filter(|it| !owned.contains(it)).collect();
            // Workers that look at the same moment begin at other places.
            let start = self.worker.number as usize % free.len().max(1);
            free.rotate_left(start);
            free.truncate(share - owned.len());
            if !free.is_empty() {
                self.take(&free).await?;
            }
        }
        self.worker.metrics.partitions.set(self.worker.partitions.owned().len() as u64);
        Ok(())
    }

    /// Lets go partitions. Their leases are written before, as far as that is soon done: no holder was told more than
    /// the table has.
    async fn let_go(&mut self, partitions: &[usize]) -> Result<(), Error> {
        let _ = timeout(LAST_WRITE, leases::write(self.worker, partitions)).await;
        partitions.iter().for_each(|it| self.worker.partitions.lose(*it));
        self.session.query(sql::LET_GO, &[&self.worker.number, &numbers(partitions)]).await?;
        Ok(())
    }

    async fn leave(&mut self) -> Result<(), Error> {
        self.let_go(&self.worker.partitions.owned()).await?;
        self.session.query(sql::LEAVE, &[&self.worker.number]).await?;
        Ok(())
    }

    /// Looks for leases that have ended and that no worker has in memory, since a former owner's statement was slow.
    async fn search(&mut self) -> Result<(), Error> {
        if self.searched.elapsed() > SEARCH_EVERY {
            self.searched = Instant::now();
            let ended = self.leases(&self.worker.partitions.owned(), false).await?;
            ended.iter().for_each(|it| self.worker.partitions.note_running(it, Duration::ZERO));
        }
        Ok(())
    }

    /// Files what it is told, until the next reading is wanted.
    async fn wait(&mut self, told: &mut UnboundedReceiver<String>, read_at: Instant) {
        let mut read_next = read_at + if self.has_more { READ_AFTER } else { READ_EVERY };
        self.has_more = false;
        while Instant::now() < read_next && !self.worker.released() {
            tokio::select! {
                _ = tokio::time::sleep_until(read_next.into()) => {}
                _ = self.worker.is_released.notified() => {}
                notice = told.recv() => match notice {
                    Some(notice) if self.file(&notice) => {}
                    Some(_) => read_next = read_next.min(read_at + READ_AFTER),
                    // The session is lost: the next statement says why.
                    None => return,
                }
            }
        }
        // The next reading answers whatever was told before it. Each notice that stays would ask for one more: where
        // readings are slow, they would go on long after the last job. A flood doesn't put the next one off.
        let until = Instant::now() + READ_AFTER;
        while let Ok(notice) = told.try_recv() {
            self.file(&notice);
            if Instant::now() > until {
                return;
            }
        }
    }

    /// Files the jobs of a notification. False where it asks to read the table.
    fn file(&self, notice: &str) -> bool {
        if notice == "*" {
            // They may have been due for long.
            self.worker.partitions.read_whole(0..self.worker.partitions.count());
            return false;
        }
        if let Some(id) = notice.strip_prefix("cancelled ") {
            id.parse().into_iter().for_each(|id| self.worker.partitions.note_cancelled(id));
            return true;
        }
        let soon = self.worker.clock.now() + HORIZON.as_micros() as i64;
        // Of what is left out the next reading knows whether it may begin.
        let is_wanted = |it: &Waiting| it.due <= soon && self.left_out.iter().all(|kind| kind[..] != it.kind[..]);
        // What isn't the trigger's ends it: what stands in the table is read anyway.
        let jobs = notice.split(',').map_while(notified).filter(is_wanted);
        jobs.for_each(|it| self.worker.partitions.note_waiting(it));
        true
    }
}

/// How many partitions one of so many workers has, before whom there are some others.
fn fair_share(partitions: usize, workers: usize, before: usize) -> usize {
    partitions / workers + usize::from(before < partitions % workers)
}

/// The seconds that are left of a term when its owner was silent for long enough.
fn left_over() -> f64 {
    (TERM - SURE).as_secs_f64()
}

/// A job of a notification: its id, its due time, its priority and its kind.
fn notified(job: &str) -> Option<Waiting> {
    let mut words = job.split(' ');
    Some(Waiting {
        id: words.next()?.parse().ok()?,
        due: words.next()?.parse().ok()?,
        priority: words.next()?.parse().ok()?,
        kind: words.next().unwrap_or_default().into(),
    })
}

/// The jobs of a reading.
fn waiting(row: &Row) -> Vec<Waiting> {
    let (ids, dues): (Vec<i64>, Vec<SystemTime>) = (row.get(5), row.get(6));
    let (priorities, kinds): (Vec<i16>, Vec<&str>) = (row.get(7), row.get(8));
    let jobs = ids.into_iter().zip(dues).zip(priorities.into_iter().zip(kinds));
    jobs.map(|((id, due), (priority, kind))| Waiting { id, due: micros(due), priority, kind: kind.into() }).collect()
}

fn numbers(partitions: &[usize]) -> Vec<i16> {
    partitions.iter().map(|it| *it as i16).collect()
}

#[cfg(test)]
mod tests {
    use super::*;

    #[test]
    fn shares_differ_by_one_at_most_and_none_is_left() {
        for (partitions, workers) in [(64, 1), (64, 3), (200, 64), (64, 100), (1, 2)] {
            let shares: Vec<usize> = (0..workers).map(|it| fair_share(partitions, workers, it)).collect();
            assert_eq!(shares.iter().sum::<usize>(), partitions);
            assert!(shares[0] - shares[workers - 1] <= 1, "{shares:?}");
        }
    }
}
