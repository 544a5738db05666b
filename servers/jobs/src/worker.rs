//! What the tasks of a worker share, and how it begins and ends.

use crate::clock::Clock;
use crate::db::{tell, Links};
use crate::metrics::Metrics;
use crate::options::WorkerOptions;
use crate::partitions::{Due, Partitions, Waiting};
use crate::ready::{Ready, MORE};
use crate::redirect::Redirects;
use crate::{chores, effect, enter, fault, leases, owner, scrape, server, setup};
use std::collections::hash_map::RandomState;
use std::error::Error;
use std::hash::{BuildHasher, Hasher};
use std::io;
use std::net::SocketAddr;
use std::sync::atomic::{AtomicBool, AtomicUsize, Ordering::SeqCst};
use std::sync::{Arc, Mutex};
use tokio::net::TcpListener;
use tokio::signal::unix::{signal, SignalKind};
use tokio::sync::mpsc::{unbounded_channel, UnboundedSender};
use tokio::sync::{watch, Notify};

const TOGETHER: usize = 2_048;
/// A drain has no more time.
const LEFT: &str = "what was under way when it was told to end isn't over: it is left to the other workers";

pub struct Worker {
    /// Drawn at its start: no other worker has it.
    pub number: i64,
    pub options: WorkerOptions,
    pub clock: Arc<Clock>,
    pub partitions: Partitions,
    pub ready: Ready,
    pub links: Links,
    pub redirects: Redirects,
    pub metrics: Arc<Metrics>,
    pub address: String,
    /// True from the moment that it ends.
    pub ending: watch::Receiver<bool>,
    /// Other workers that have jobs for holders: a partition and the address of each, and the kinds.
    elsewhere: Mutex<Vec<(String, Vec<String>)>>,
    /// How often a holder was to be sent elsewhere.
    turn: AtomicUsize,
    /// Rung when the partitions are to be let go.
    pub is_released: Notify,
    released: AtomicBool,
}

impl Worker {
    fn new(options: WorkerOptions, address: String, ending: watch::Receiver<bool>) -> Worker {
        let metrics = Arc::new(Metrics::default());
        let database = options.database.named(&format!("jobs-work {}", options.name));
        let clock = Arc::new(Clock::new());
        Worker {
            // The standard library draws the keys of its hashes.
            number: (RandomState::new().build_hasher().finish() >> 1) as i64,
            partitions: Partitions::new(clock.clone()),
            clock,
            ready: Ready::default(),
            links: Links::new(database, metrics.clone(), options.sessions - 1),
            metrics,
            redirects: Redirects::default(),
            address,
            ending,
            elsewhere: Mutex::new(Vec::new()),
            turn: AtomicUsize::new(0),
            is_released: Notify::new(),
            released: AtomicBool::new(false),
            options,
        }
    }

    pub fn is_ending(&self) -> bool {
        *self.ending.borrow()
    }

    pub fn released(&self) -> bool {
        self.released.load(SeqCst)
    }

    fn release(&self) {
        self.released.store(true, SeqCst);
        self.is_released.notify_one();
    }

    /// A partition and the address of its worker, which has jobs of some kinds, of any where none is named, that are
    /// ready and wait for holders. Those that have more kinds than they tell are named in turn, and after all of them
    /// none.
    pub fn elsewhere(&self, kinds: &[String]) -> Option<String> {
        let places = enter(&self.elsewhere);
        let turn = self.turn.fetch_add(1, SeqCst);
        let of = |kinds: &[String]| -> Vec<&String> {
            let has_some = |ready: &[String]| kinds.is_empty() || ready.iter().any(|it| kinds.contains(it));
            places.iter().filter(|it| has_some(&it.1)).map(|it| &it.0).collect()
        };
        let (ready, more) = (of(kinds), of(&[MORE.to_owned()]));
        ready.get(turn % ready.len().max(1)).or(more.get(turn % (more.len() + 1))).map(|it| it.to_string())
    }

    /// What `READ` has said of other workers: partition, address, a slash and kinds.
    pub fn note_elsewhere(&self, places: Vec<&str>) {
        let places = places.into_iter().filter_map(|it| it.rsplit_once('/'));
        let place = |(at, ready): (&str, &str)| (at.to_owned(), ready.split(' ').map(str::to_owned).collect());
        *enter(&self.elsewhere) = places.map(place).collect();
    }
}

/// Takes out what is due, until the worker ends.
fn keep(worker: &Worker, jobs: &UnboundedSender<Vec<Waiting>>, leases: &UnboundedSender<Vec<(i64, i32)>>) {
    let mut out = Vec::new();
    while worker.partitions.queue.recv_many(&mut out, TOGETHER) > 0 {
        let (mut due, mut ended) = (Vec::new(), Vec::new());
        for it in out.drain(..) {
            match it.value {
                Due::Job(id) => due.extend(worker.partitions.note_out(id)),
                Due::Lease { id, attempt } => ended.push((id, attempt)),
            }
        }
        // The receivers end after this thread.
        if !due.is_empty() {
            let _ = jobs.send(due);
        }
        if !ended.is_empty() {
            let _ = leases.send(ended);
        }
    }
}

/// Runs a worker until it is told to end by SIGTERM or SIGINT.
pub async fn run(options: WorkerOptions) -> Result<(), Box<dyn Error>> {
    let (end, ending) = watch::channel(false);
    let (listener, address) = match &options.effect {
        Some(_) => (None, "-".to_owned()),
        None => {
            let listener = bind(options.listen).await?;
            let here = listener.local_addr()?.to_string();
            (Some(listener), options.announce.clone().unwrap_or(here))
        }
    };
    let worker = Arc::new(Worker::new(options, address, ending));
    match worker.options.effect {
        Some(_) => tell(format_args!("worker {} has an effect", worker.options.name)),
        None => tell(format_args!("worker {} at {}", worker.options.name, worker.address)),
    }
    if let Some(address) = worker.options.metrics {
        tokio::spawn(scrape::serve(worker.clone(), bind(address).await?));
    }
    worker.partitions.divide(setup::check(&worker.links, &worker.options.database).await?);
    let statement = match &worker.options.effect {
        Some(effect) => effect::statement(&worker.links, effect).await?,
        None => String::new(),
    };
    let (mut tasks, signals) = (begin(&worker, listener, statement.into()), signals()?);
    tokio::select! {
        _ = signals.notified() => {}
        ended = &mut tasks.owner => return Ok(ended??),
    }
    tell(format_args!("worker {} drains", worker.options.name));
    end.send(true)?;
    worker.partitions.queue.close();
    tokio::select! {
        _ = tasks.finish(&worker) => {}
        _ = tokio::time::sleep(worker.options.drain) => return Err(LEFT.into()),
        _ = signals.notified() => return Err(LEFT.into()),
    }
    tell(format_args!("worker {} has ended", worker.options.name));
    Ok(())
}

async fn bind(address: SocketAddr) -> Result<TcpListener, String> {
    TcpListener::bind(address).await.map_err(|error| format!("{address}: {error}"))
}

struct Tasks {
    keeper: std::thread::JoinHandle<()>,
    jobs: tokio::task::JoinHandle<()>,
    expiry: tokio::task::JoinHandle<()>,
    owner: tokio::task::JoinHandle<Result<(), fault::Error>>,
}

fn begin(worker: &Arc<Worker>, listener: Option<TcpListener>, effect: Arc<str>) -> Tasks {
    let (due, mut jobs) = unbounded_channel::<Vec<Waiting>>();
    let (ended, leases_ended) = unbounded_channel();
    let kept = worker.clone();
    let keeper = std::thread::spawn(move || keep(&kept, &due, &ended));
    let jobs = match listener {
        Some(listener) => {
            tokio::spawn(server::serve(worker.clone(), listener));
            let worker = worker.clone();
            tokio::spawn(async move {
                while let Some(jobs) = jobs.recv().await {
                    worker.ready.push(jobs);
                }
            })
        }
        None => tokio::spawn(effect::run(worker.clone(), effect, jobs)),
    };
    let expiry = tokio::spawn(leases::expire_on(worker.clone(), leases_ended));
    tokio::spawn(leases::write_on(worker.clone()));
    tokio::spawn(chores::run(worker.clone()));
    let owner = tokio::spawn(owner::run(worker.clone()));
    Tasks { keeper, jobs, expiry, owner }
}

impl Tasks {
    /// Waits for what is under way. Then the leases are written, and the partitions let go.
    async fn finish(self, worker: &Worker) {
        worker.links.end();
        // The channels end with the keeper, and the tasks with their channels.
        let _ = tokio::task::spawn_blocking(move || self.keeper.join()).await;
        let _ = self.jobs.await;
        let _ = self.expiry.await;
        worker.release();
        let _ = self.owner.await;
    }
}

/// What is rung at each SIGTERM and SIGINT.
fn signals() -> io::Result<Arc<Notify>> {
    let told = Arc::new(Notify::new());
    for kind in [SignalKind::terminate(), SignalKind::interrupt()] {
        let (mut signal, told) = (signal(kind)?, told.clone());
        tokio::spawn(async move {
            while signal.recv().await.is_some() {
                told.notify_one();
            }
        });
    }
    Ok(told)
}
