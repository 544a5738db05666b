//! The words as any thread steps on them: each call by a seat of its own, which its load makes.

use crate::memory::AllocError;
use crate::words::seated::Seated;
use crate::words::table::Table;
use alloc::sync::Arc;

/// A keeper's words, by which any thread extends and cancels entries, and looks at them, with no caller.
///
/// ```
/// use hontkhale::parts::owner::{CoreConfig, DelayCore, Keeper, Look, Turn};
/// use std::thread;
///
/// let mut keeper = Keeper::new(1_000).unwrap();
/// let words = keeper.open().unwrap();
/// let mut queue = DelayCore::new(CoreConfig::of(1_000), keeper).unwrap();
/// let key = queue.insert_or_drop("lease", 100)?;
/// thread::scope(|scope| {
///     scope.spawn(|| assert_eq!(words.extend(&key, 250), Ok(250)));
/// });
/// assert_eq!(words.look(&key), Ok(Look::StillLive(250)));
/// assert!(matches!(queue.poll(249)?, Turn::Waiting { .. }));
/// assert!(matches!(queue.poll(250)?, Turn::Out(expired) if expired.value == "lease"));
/// # Ok::<(), hontkhale::parts::owner::CoreError>(())
/// ```
///
/// Each call takes `&self`, makes one load and at most one atomic step, waits for nobody and takes no memory. Nothing
/// is issued, counted or given back for it. The words may outlive their queue: the entries that were live when the
/// queue was dropped are then refused as `Ended`, and a look shows them as removed.
pub struct OpenWords {
    table: Arc<Table>,
    rows: usize,
}

impl Seated {
    // The words of the table, for any thread.
    pub(crate) fn open(&mut self) -> Result<OpenWords, AllocError> {
        // requires self.old.view.keeps ≡ true
        self.is_shared = true;
        let table = Arc::clone(&self.table);
        Ok(OpenWords { table, rows: self.rows })
    }
}

impl OpenWords {
    pub(crate) fn rows(&self) -> usize {
        self.rows
    }

    // The load that makes a seat for one call.
    pub(crate) fn pass(&self, index: usize) -> u64 {
        // requires index < self.now.rows
        self.table.load(index)
    }

    // The fetch_max of a live word, which raises a live deadline of its stamp.
    pub(crate) fn pass_extend(&self, index: usize, new: u64) -> u64 {
        // requires passer.old.table ≡ self.now.table
        // requires index < self.now.rows
        // requires length passer.old.view.seen ≡ self.now.rows
        // requires (passer.old.view.keeps ≡ false) × (passer.old.view.gone ≡ false)
        // requires (0 < stamp_of new) × (mark_of new ≡ 0)
        // requires stamp_of new ≤ stamp_of (slice_index passer.old.view.seen index)
        self.table.fetch_max(index, new)
    }

    // The fetch_max of a cancelled word, which ends a live word of its stamp. No step on the return word counts it.
    pub(crate) fn pass_cancel(&self, index: usize, new: u64) -> u64 {
        // requires passer.old.table ≡ self.now.table
        // requires index < self.now.rows
        // requires length passer.old.view.seen ≡ self.now.rows
        // requires (passer.old.view.keeps ≡ false) × (passer.old.view.gone ≡ false)
        // requires (0 < stamp_of new) × (new ≡ word (stamp_of new) 1 0)
        // requires stamp_of new ≤ stamp_of (slice_index passer.old.view.seen index)
        self.table.fetch_max(index, new)
    }
}
