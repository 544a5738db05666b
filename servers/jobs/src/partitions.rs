//! What a worker holds of each partition: which jobs wait in its queue, which are out, and which leases it keeps.

use crate::clock::Clock;
use crate::enter;
use hontkhale::{DelayQueue, Key};
use std::collections::HashMap;
use std::sync::{Arc, Mutex, MutexGuard, OnceLock};
use std::time::{Duration, Instant};

/// The most jobs that wait in memory of a partition; the others wait in the table until there is room.
pub const WAITING_ROOM: usize = 2_048;
/// How long a transaction may be open that enqueues a job which is due already, in microseconds, for the next reading
/// to find it: later ones are told by a notification, or found by the next reading of the whole partition.
const LATE: i64 = 2_000_000;
/// No job is due before it, which is the database's first day, in microseconds since 1970.
const EARLIEST: i64 = -210_866_803_200_000_000;
/// The most jobs that a reading files in a partition of a kind of which some at a time may run.
const FEW: usize = 32;

/// What may be due.
#[derive(Clone, Copy, Debug, PartialEq, Eq)]
pub enum Due {
    /// A job that waits.
    Job(i64),
    /// The lease of an attempt of a job.
    Lease { id: i64, attempt: i32 },
}

/// A job that waits, as the table or a notification has it.
#[derive(Clone, Debug, PartialEq, Eq)]
pub struct Waiting {
    pub id: i64,
    pub due: i64,
    pub priority: i16,
    pub kind: Arc<str>,
}

/// A running job as the table has it.
#[derive(Clone, Copy)]
pub struct Running {
    pub id: i64,
    pub attempt: i32,
    pub lease_until: i64,
}

/// What a holder is told of its lease.
#[derive(Clone, Copy, Debug, PartialEq, Eq)]
pub enum Beat {
    /// It stands in the table until a microsecond since 1970, whatever becomes of this worker.
    Extended(i64),
    /// It isn't known here, and may stand in the table.
    Unknown,
    /// It ended, or another attempt has it.
    Fenced,
    /// Another worker owns the partition.
    Foreign,
    /// It is extended in memory, but this worker can't know whether it still owns the partition.
    Doubtful,
    /// It is extended in memory, but what the table has of it is over: the row couldn't be written.
    Unwritten,
}

/// A lease that was extended in memory, to a moment.
#[derive(Clone, Copy)]
pub struct Extended {
    pub id: i64,
    pub attempt: i32,
    pub until: Instant,
}

enum Held {
    /// It waits in the queue for its due time.
    Waiting {
        key: Key,
        job: Waiting,
    },
    /// It came out, and is about to be looked at in the table.
    Out(Waiting),
    Running(Lease),
}

impl Held {
    /// Whether it is a job of a kind that waits or is out.
    fn waits_as(&self, kind: &str) -> bool {
        matches!(self, Held::Waiting { job, .. } | Held::Out(job) if job.kind[..] == *kind)
    }
}

/// A lease of an attempt, whose deadline in force stands in the queue.
struct Lease {
    attempt: i32,
    key: Key,
    /// What the table is known to have, in microseconds since 1970, and which deadline that was.
    written: i64,
    was: Instant,
}

#[derive(Default)]
struct Partition {
    /// The term by which this worker owns it.
    term: Option<i64>,
    /// Until when no other worker can own it.
    surely_until: Option<Instant>,
    held: HashMap<i64, Held>,
    /// How many of those wait or are out.
    waiting: usize,
    /// Nothing waits that was due before it, in microseconds since 1970, but for what was enqueued late.
    since: i64,
    /// The next reading is of all that waits.
    is_whole: bool,
}

pub struct Partitions {
    pub queue: DelayQueue<Due>,
    clock: Arc<Clock>,
    /// Once the table has told how many there are.
    partitions: OnceLock<Vec<Mutex<Partition>>>,
}

impl Partitions {
    pub fn new(clock: Arc<Clock>) -> Partitions {
        Partitions { queue: DelayQueue::new(), clock, partitions: OnceLock::new() }
    }

    /// So many there are.
    pub fn divide(&self, count: usize) {
        self.partitions.get_or_init(|| (0..count).map(|_| Mutex::default()).collect());
    }

    fn all(&self) -> &[Mutex<Partition>] {
        self.partitions.get().map_or(&[], Vec::as_slice)
    }

    pub fn count(&self) -> usize {
        self.all().len()
    }

    /// The partition of a job, as the table has it.
    pub fn of(&self, id: i64) -> usize {
        id.rem_euclid(self.count().max(1) as i64) as usize
    }

    fn of_job(&self, id: i64) -> MutexGuard<'_, Partition> {
        enter(&self.all()[self.of(id)])
    }

    /// The terms by which this worker owns partitions, as the statements want them: 0 for what isn't owned. Another may
    /// have taken one since.
    pub fn terms(&self) -> Vec<i64> {
        self.all().iter().map(|it| enter(it).term.unwrap_or(0)).collect()
    }

    pub fn owned(&self) -> Vec<usize> {
        (0..self.count()).filter(|it| enter(&self.all()[*it]).term.is_some()).collect()
    }

    /// The database has renewed a term: until a moment nobody else takes the partition.
    pub fn renew(&self, partition: usize, term: i64, until: Instant) {
        let mut held = enter(&self.all()[partition]);
        if held.term == Some(term) {
            held.surely_until = Some(until);
        }
    }

    /// The owned partitions that have room for what waits, one of so many in turn, each with the time since which its jobs
    /// are to be read: what was due before is over, and the dead rows that it left aren't read again and again.
    pub fn to_read(&self, of: usize, turn: usize) -> (Vec<usize>, Vec<i64>) {
        let to_read = |(number, partition): (usize, &Mutex<Partition>)| {
            let mut partition = enter(partition);
            if partition.term.is_none() || partition.waiting > WAITING_ROOM / 2 {
                return None;
            }
            if std::mem::take(&mut partition.is_whole) {
                partition.since = EARLIEST;
            }
            Some((number, partition.since))
        };
        self.all().iter().enumerate().filter(|it| it.0 % of == turn % of).filter_map(to_read).unzip()
    }

    /// Some partitions were read at a time of the database, with these jobs. Of each of some kinds a partition holds few.
    pub fn note_read(&self, partitions: &[usize], jobs: Vec<Waiting>, bounded: &[String], now: i64) {
        let mut first = vec![now; self.count()];
        let mut few: HashMap<(usize, Arc<str>), usize> = HashMap::new();
        for job in jobs {
            let partition = self.of(job.id);
            first[partition] = job.due.min(first[partition]);
            if bounded.iter().any(|it| it[..] == job.kind[..]) {
                let count = few.entry((partition, job.kind.clone())).or_default();
                *count += 1;
                if *count > FEW {
                    continue;
                }
            }
            self.note_waiting(job);
        }
        for it in partitions {
            let mut partition = enter(&self.all()[*it]);
            if !partition.is_whole {
                partition.since = first[*it] - LATE;
            }
        }
    }

    /// The next reading of some partitions is of all that waits in them.
    pub fn read_whole(&self, partitions: impl IntoIterator<Item = usize>) {
        partitions.into_iter().for_each(|it| enter(&self.all()[it]).is_whole = true);
    }

    /// Those of some kinds of which jobs wait in memory.
    pub fn waiting_of(&self, kinds: &[String]) -> Vec<String> {
        let waits = |kind: &str| self.all().iter().any(|it| enter(it).held.values().any(|held| held.waits_as(kind)));
        kinds.iter().filter(|it| waits(it)).cloned().collect()
    }

    /// Forgets the jobs of some kinds that wait in memory: they stand in the table.
    pub fn forget_kinds(&self, kinds: &[String]) {
        for partition in self.all().iter().take_while(|_| !kinds.is_empty()) {
            let mut partition = enter(partition);
            let of_them = partition.held.iter().filter(|it| kinds.iter().any(|kind| it.1.waits_as(kind)));
            let ids: Vec<i64> = of_them.map(|it| *it.0).collect();
            ids.into_iter().for_each(|id| self.let_go(&mut partition, id));
        }
    }

    /// A job was cancelled: whether somebody has it is asked of the table at his next word.
    pub fn note_cancelled(&self, id: i64) {
        let mut partition = self.of_job(id);
        if let Some(Held::Running(_)) = partition.held.get(&id) {
            self.let_go(&mut partition, id);
        }
    }

    /// How many jobs wait in memory, and how many leases there are.
    pub fn counts(&self) -> (usize, usize) {
        let add = |(waiting, leases), it: MutexGuard<'_, Partition>| {
            (waiting + it.waiting, leases + it.held.len() - it.waiting)
        };
        self.all().iter().map(enter).fold((0, 0), add)
    }

    /// It is owned from now on by a term, with the leases that the table has.
    pub fn own(&self, partition: usize, term: i64, leases: &[Running]) {
        self.lose(partition);
        *enter(&self.all()[partition]) = Partition { term: Some(term), is_whole: true, ..Partition::default() };
        let theirs = leases.iter().filter(|it| self.of(it.id) == partition);
        theirs.for_each(|it| self.note_running(it, Duration::ZERO));
    }

    /// It is another's. What it held is forgotten, and a holder's next word is answered by the new owner's address.
    pub fn lose(&self, partition: usize) {
        let lost = std::mem::take(&mut *enter(&self.all()[partition]));
        lost.held.values().for_each(|it| self.forget(it));
    }

    /// Forgets what is held of a job.
    fn let_go(&self, partition: &mut Partition, id: i64) {
        if let Some(held) = partition.held.remove(&id) {
            partition.waiting -= usize::from(!matches!(held, Held::Running(_)));
            self.forget(&held);
        }
    }

    /// Takes out of the queue what isn't held any more.
    fn forget(&self, held: &Held) {
        if let Held::Waiting { key, .. } | Held::Running(Lease { key, .. }) = held {
            // It may be out already: whoever has it finds that nobody waits for it.
            let _ = self.queue.remove(key);
        }
    }

    /// A job waits, as the table or a notification said.
    pub fn note_waiting(&self, job: Waiting) {
        let (id, due) = (job.id, self.clock.moment(job.due));
        let mut partition = self.of_job(id);
        let has_room = partition.term.is_some() && partition.waiting < WAITING_ROOM;
        match partition.held.get_mut(&id) {
            Some(Held::Waiting { job: known, .. } | Held::Out(known)) if *known == job => {}
            Some(Held::Running(_)) => {}
            Some(Held::Waiting { key, job: known }) => {
                if let Ok(reset) = self.queue.reset_at(key, due) {
                    (*key, *known) = (reset, job);
                }
            }
            None if !has_room => {}
            // One that is out comes out once more, as what it is now: whoever finds it as what it was leaves it.
            Some(Held::Out(_)) | None => {
                if let Ok(key) = self.queue.insert_at(Due::Job(id), due) {
                    let was = partition.held.insert(id, Held::Waiting { key, job });
                    partition.waiting += usize::from(was.is_none());
                }
            }
        }
    }

    /// A job came out of the queue. None where nobody waits for it any more.
    pub fn note_out(&self, id: i64) -> Option<Waiting> {
        let mut partition = self.of_job(id);
        let held = partition.held.get_mut(&id)?;
        let Held::Waiting { job, .. } = held else { return None };
        let job = job.clone();
        *held = Held::Out(job.clone());
        Some(job)
    }

    /// Whether a job that is out may be given to a holder as one of a kind.
    pub fn may_be_given(&self, id: i64, kind: &str) -> bool {
        let partition = self.of_job(id);
        partition.term.is_some() && matches!(partition.held.get(&id), Some(Held::Out(job)) if job.kind[..] == *kind)
    }

    /// A job that is out comes out again after some time. False where it is later than that by more than it may be.
    pub fn put_off(&self, id: i64, by: Duration, most: Duration) -> bool {
        let mut partition = self.of_job(id);
        let job = match partition.held.get(&id) {
            Some(Held::Out(job)) if self.clock.now() - job.due < most.as_micros() as i64 => job.clone(),
            _ => return false,
        };
        let key = self.queue.insert(Due::Job(id), by);
        key.is_ok_and(|key| partition.held.insert(id, Held::Waiting { key, job }).is_some())
    }

    /// The table has been asked about jobs that were out: they aren't held any more. Where one still waits, since not
    /// all were taken, the next reading tells.
    pub fn note_asked(&self, ids: &[i64], taken: usize) {
        for id in ids {
            let mut partition = self.of_job(*id);
            partition.is_whole |= taken < ids.len();
            if let Some(Held::Out(_)) = partition.held.get(id) {
                self.let_go(&mut partition, *id);
            }
        }
    }

    /// A job runs, by a lease of the table's, which this worker doesn't end before so long from now. It is held where
    /// this worker owns it.
    pub fn note_running(&self, running: &Running, not_before: Duration) {
        let Running { id, attempt, lease_until } = *running;
        let mut partition = self.of_job(id);
        if partition.term.is_none() {
            return;
        }
        match partition.held.get(&id) {
            Some(Held::Running(lease)) if lease.attempt >= attempt => return,
            _ => self.let_go(&mut partition, id),
        }
        let until = self.clock.moment(lease_until).max(Instant::now() + not_before);
        if let Ok(key) = self.queue.insert_at(Due::Lease { id, attempt }, until) {
            let was = self.queue.deadline(&key).unwrap_or(until);
            partition.held.insert(id, Held::Running(Lease { attempt, key, written: lease_until, was }));
        }
    }

    /// Extends the lease of an attempt to so long from now on.
    pub fn beat(&self, id: i64, attempt: i32, by: Duration) -> Beat {
        let partition = self.of_job(id);
        let lease = match partition.held.get(&id) {
            _ if partition.term.is_none() => return Beat::Foreign,
            Some(Held::Running(lease)) => lease,
            _ => return Beat::Unknown,
        };
        if lease.attempt != attempt || self.queue.extend(&lease.key, by).is_err() {
            return Beat::Fenced;
        }
        if partition.surely_until.map_or(true, |it| it <= Instant::now()) {
            return Beat::Doubtful;
        }
        if self.clock.left_until(lease.written) > 0 {
            Beat::Extended(lease.written)
        } else {
            Beat::Unwritten
        }
    }

    /// An attempt has ended. What it held is let go, and true told where the job is out again as it waits now.
    pub fn end(&self, id: i64, attempt: i32, again: Option<&Waiting>) -> bool {
        let mut partition = self.of_job(id);
        match partition.held.get(&id) {
            Some(Held::Running(lease)) if lease.attempt == attempt => self.let_go(&mut partition, id),
            _ => return false,
        }
        let again = again.filter(|_| partition.term.is_some());
        partition.held.extend(again.map(|it| (id, Held::Out(it.clone()))));
        partition.waiting += usize::from(again.is_some());
        again.is_some()
    }

    /// The leases of some partitions that were extended since the table was told of them.
    pub fn extended(&self, partitions: &[usize]) -> Vec<Extended> {
        let mut extended = Vec::new();
        for number in partitions {
            for (id, held) in &enter(&self.all()[*number]).held {
                if let Held::Running(lease) = held {
                    let until = self.queue.deadline(&lease.key).ok().filter(|it| *it > lease.was);
                    extended.extend(until.map(|until| Extended { id: *id, attempt: lease.attempt, until }));
                }
            }
        }
        extended
    }

    /// The table has a lease until a microsecond since 1970.
    pub fn note_written(&self, lease: &Extended, until: i64) {
        if let Some(Held::Running(known)) = self.of_job(lease.id).held.get_mut(&lease.id) {
            if known.attempt == lease.attempt {
                (known.written, known.was) = (until, lease.until);
            }
        }
    }
}

#[cfg(test)]
mod tests {
    use super::*;

    fn partitions(count: usize) -> Partitions {
        let partitions = Partitions::new(Arc::new(Clock::new()));
        partitions.divide(count);
        partitions
    }

    /// More than any machine needs for a test.
    const LONG: Duration = Duration::from_secs(600);

    /// The leases of two jobs, of which the first was extended before it ended: they live longer where the machine is slow.
    fn extended_once() -> Partitions {
        for millis in (0..12).map(|it| 50 << it) {
            let (begun, it) = (Instant::now(), partitions(2));
            it.own(1, 7, &[1, 3, 2].map(|id| Running { id, attempt: 1, lease_until: 1_000 * millis }));
            assert_eq!(it.counts(), (0, 2), "leases of another partition aren't held");
            let beat = it.beat(1, 1, LONG);
            if begun.elapsed() < Duration::from_millis(millis as u64) {
                assert_eq!(beat, Beat::Doubtful);
                return it;
            }
        }
        panic!("the machine is too slow for this test");
    }

    #[test]
    fn ids_go_to_partitions_as_in_the_table() {
        let of = |count, id| partitions(count).of(id);
        assert_eq!((of(64, 0), of(64, 63), of(64, 64), of(64, 129), of(200, 399)), (0, 63, 0, 1, 199));
    }

    #[test]
    fn a_lease_that_was_extended_comes_out_later_and_is_written_once() {
        let it = extended_once();
        it.renew(1, 7, Instant::now() + LONG);
        assert_eq!(it.beat(1, 2, LONG), Beat::Fenced);
        assert_eq!(it.beat(2, 1, LONG), Beat::Foreign);
        assert_eq!(it.beat(5, 1, LONG), Beat::Unknown);
        assert_eq!(it.queue.recv().unwrap().value, Due::Lease { id: 3, attempt: 1 });
        let extended = it.extended(&[0, 1]);
        assert_eq!((extended.len(), extended[0].id), (1, 1));
        it.note_written(&extended[0], 600_000_000);
        assert!(it.extended(&[1]).is_empty());
        assert_eq!(it.beat(1, 1, Duration::ZERO), Beat::Extended(600_000_000));
        it.lose(1);
        assert!(it.queue.is_empty());
    }

    #[test]
    fn a_partition_holds_so_many_jobs_that_wait_and_others_hold_theirs() {
        let it = partitions(2);
        let job = |id: usize| Waiting { id: id as i64, due: 0, priority: 0, kind: "".into() };
        (0..2).for_each(|partition| it.own(partition, 1, &[]));
        (0..=WAITING_ROOM).for_each(|id| it.note_waiting(job(2 * id)));
        it.note_waiting(job(1));
        assert_eq!((it.counts(), it.queue.len()), ((WAITING_ROOM + 1, 0), WAITING_ROOM + 1));
        assert!(it.note_out(1).is_some() && it.note_out(1).is_none() && it.may_be_given(1, ""));
        assert!(!it.may_be_given(1, "mail"));
        it.lose(1);
        assert!(!it.may_be_given(1, ""));
    }
}
