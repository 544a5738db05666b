//! A cache over TCP, whose entries expire: none is shown from its deadline on, and its memory is freed then.
//!
//! A request is a line, and so is each answer:
//!
//! | Request | Answer |
//! |---|---|
//! | `put NAME MILLIS VALUE` | `ok`: it is kept for so long, in place of what NAME had; or `full` |
//! | `get NAME` | `value VALUE`, or `none` |
//! | `keep NAME MILLIS` | `ok`: it is kept for so long from now on, if that is later than before; or `none` |
//! | `drop NAME` | `ok` or `none` |
//! | `count` | how many entries there are |

use hontkhale::{DelayQueue, Key};
use std::collections::HashMap;
use std::io::{self, BufRead, BufReader, Write};
use std::net::{TcpListener, TcpStream};
use std::sync::{Arc, PoisonError, RwLock, RwLockReadGuard, RwLockWriteGuard};
use std::thread;
use std::time::Duration;

struct Entry {
    value: Arc<str>,
    /// Its entry in the queue, which has its deadline.
    key: Key,
}

type Entries = HashMap<Arc<str>, Entry>;

pub struct Cache {
    entries: RwLock<Entries>,
    /// The deadlines, each with its name. The most entries that it takes are the most that the cache has.
    deadlines: DelayQueue<Arc<str>>,
}

impl Cache {
    /// A cache, and a thread that frees what has expired.
    pub fn new(deadlines: DelayQueue<Arc<str>>) -> Arc<Cache> {
        let cache = Arc::new(Cache { entries: RwLock::default(), deadlines });
        let frees = Arc::clone(&cache);
        thread::spawn(move || {
            for expired in &frees.deadlines {
                frees.forget(&expired.value, &expired.key);
            }
        });
        cache
    }

    fn read(&self) -> RwLockReadGuard<'_, Entries> {
        self.entries.read().unwrap_or_else(PoisonError::into_inner)
    }

    fn write(&self) -> RwLockWriteGuard<'_, Entries> {
        self.entries.write().unwrap_or_else(PoisonError::into_inner)
    }

    /// Keeps a value for so long. False if the cache is full: nothing is changed then.
    pub fn put(&self, name: &str, lasts: Duration, value: &str) -> bool {
        let mut entries = self.write();
        let name: Arc<str> = name.into();
        // An entry whose key is at hand is given its new deadline, so that the name takes no second place.
        let old = entries.get(&name).and_then(|it| self.deadlines.reset(&it.key, lasts).ok());
        let Some(key) = old.or_else(|| self.deadlines.insert(Arc::clone(&name), lasts).ok()) else { return false };
        entries.insert(name, Entry { value: value.into(), key });
        true
    }

    /// The value of an entry whose deadline isn't over. Readers share the table's lock, and asking takes none in the queue.
    pub fn get(&self, name: &str) -> Option<Arc<str>> {
        let entries = self.read();
        let Entry { value, key } = entries.get(name)?;
        // The thread that frees it may come later than its deadline.
        match self.deadlines.remove_if_due(key) {
            Ok(None) => return Some(Arc::clone(value)),
            Ok(Some(_)) => {
                let key = *key;
                drop(entries);
                self.forget(name, &key);
            }
            // That thread has it in hand.
            Err(_) => {}
        }
        None
    }

    /// Gives an entry a later deadline.
    pub fn keep(&self, name: &str, lasts: Duration) -> bool {
        // What is over isn't brought back.
        self.get(name).is_some()
            && self.read().get(name).is_some_and(|it| self.deadlines.extend(&it.key, lasts).is_ok())
    }

    pub fn remove(&self, name: &str) -> bool {
        let entry = self.write().remove(name);
        entry.is_some_and(|it| self.deadlines.remove(&it.key).is_ok())
    }

    /// How many entries there are whose memory isn't freed.
    pub fn count(&self) -> usize {
        self.read().len()
    }

    /// Frees an entry that is out of the queue. A newer one of the same name has another key.
    fn forget(&self, name: &str, key: &Key) {
        let mut entries = self.write();
        if entries.get(name).is_some_and(|it| it.key == *key) {
            entries.remove(name);
        }
    }
}

pub fn serve(listener: TcpListener, cache: &Arc<Cache>) {
    for stream in listener.incoming().flatten() {
        let cache = Arc::clone(cache);
        thread::spawn(move || answer_all(&stream, &cache));
    }
}

fn answer_all(mut stream: &TcpStream, cache: &Cache) -> io::Result<()> {
    for line in BufReader::new(stream).lines() {
        let answer = answer(cache, &line?);
        stream.write_all(format!("{answer}\n").as_bytes())?;
    }
    Ok(())
}

fn answer(cache: &Cache, line: &str) -> String {
    let words: Vec<&str> = line.splitn(4, ' ').collect();
    let millis = || words[2].parse().ok().map(Duration::from_millis);
    let or_none = |is_there| if is_there { "ok" } else { "none" };
    match words[..] {
        ["put", name, _, value] => match millis().map(|lasts| cache.put(name, lasts, value)) {
            Some(true) => "ok".into(),
            Some(false) => "full".into(),
            None => "a number is wanted".into(),
        },
        ["keep", name, _] => millis().map_or("a number is wanted", |lasts| or_none(cache.keep(name, lasts))).into(),
        ["get", name] => cache.get(name).map_or("none".into(), |value| format!("value {value}")),
        ["drop", name] => or_none(cache.remove(name)).into(),
        ["count"] => cache.count().to_string(),
        _ => "that isn't known".into(),
    }
}

#[allow(dead_code)]
fn main() {
    let listener = TcpListener::bind("127.0.0.1:7009").expect("a free port");
    serve(listener, &Cache::new(DelayQueue::builder().max_entries(100_000).build()));
}
