//! Names that one client has for itself, so that what it does with them in many steps is one step to all others. Whoever
//! asks for other names is served meanwhile.

use super::Keyspace;
use crate::lock;
use std::collections::HashSet;
use std::sync::atomic::{AtomicBool, Ordering::SeqCst};
use std::sync::{Arc, Mutex};

/// A thread's turn, which it has while it serves a request.
pub type Turn = Arc<Mutex<()>>;

/// What is claimed: names by their hashes, or all that there are.
#[derive(Default)]
pub struct Claimed {
    pub is_all: bool,
    hashes: HashSet<u64>,
}

#[derive(Default)]
pub struct Claims {
    turns: Mutex<Vec<Turn>>,
    claimed: Mutex<Option<Claimed>>,
    is_any: AtomicBool,
}

/// While it is held no other client is served that asks for what it claims.
pub struct Claim(Arc<Keyspace>);

impl Keyspace {
    pub fn turn(&self) -> Turn {
        let turn = Turn::default();
        lock(&self.claims.turns).push(turn.clone());
        turn
    }

    /// Claims names, none where another has claimed some. Whoever claims has no turn, for it waits until each thread's is
    /// over: no request that began before goes on then.
    pub fn claim(self: &Arc<Self>, claimed: Claimed) -> Option<Claim> {
        let mut now = lock(&self.claims.claimed);
        if now.is_some() {
            return None;
        }
        *now = Some(claimed);
        self.claims.is_any.store(true, SeqCst);
        drop(now);
        lock(&self.claims.turns).iter().for_each(|it| drop(lock(it)));
        Some(Claim(self.clone()))
    }

    /// Whether one of the names is claimed, or any at all for whoever asks for all. It holds for as long as the asking
    /// thread's turn.
    pub fn is_claimed<'a>(&self, mut names: impl Iterator<Item = &'a [u8]>, is_all: bool) -> bool {
        if !self.claims.is_any.load(SeqCst) {
            return false;
        }
        let claimed = lock(&self.claims.claimed);
        claimed.as_ref().is_some_and(|it| is_all || names.any(|name| it.is_all || it.hashes.contains(&self.hash(name))))
    }

    pub fn add(&self, name: &[u8], to: &mut Claimed) {
        to.hashes.insert(self.hash(name));
    }
}

impl Drop for Claim {
    fn drop(&mut self) {
        let mut claimed = lock(&self.0.claims.claimed);
        self.0.claims.is_any.store(false, SeqCst);
        *claimed = None;
    }
}
