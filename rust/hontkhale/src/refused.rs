//! A refusal that carries back what was handed in.

use crate::core::CoreError;
use core::fmt;

/// Why a call was refused, with the value that it handed back.
///
/// A call that takes a value answers a refusal as a pair, `Err((error, value))`. Of such a pair `?` makes a `Refused`,
/// which is an error of its own: it is shown as its error is, and the value doesn't have to be shown. A function that answers
/// a `Box<dyn Error>` writes `.map_err(Refused::from)?`, since a pair is no error. Whoever doesn't want the value takes
/// `insert_or_drop`.
///
#[cfg_attr(feature = "std", doc = "```")]
#[cfg_attr(not(feature = "std"), doc = "```ignore")]
/// use hontkhale::parts::Refused;
/// use hontkhale::parts::owner::{DelayCore, Key, VecWords};
///
/// type Jobs = DelayCore<String, VecWords>;
///
/// fn retry(jobs: &mut Jobs, job: String) -> Result<Key, Refused<String>> {
///     Ok(jobs.insert(job, 30_000)?)
/// }
///
/// fn main() -> Result<(), Box<dyn std::error::Error>> {
///     let mut jobs = Jobs::with_capacity(1)?;
///     jobs.insert("mail".to_string(), 30_000).map_err(Refused::from)?;
///     let refused = retry(&mut jobs, "backup".to_string()).unwrap_err();
///     assert_eq!(refused.to_string(), "the queue is full: 1 entries are linked and 0 slots are worn");
///     assert_eq!(refused.value, "backup");
///     Ok(())
/// }
/// ```
///
/// A cache hands key and value back: of its triple `?` makes a `Refused<(K, V)>`.
#[derive(Clone, Copy, PartialEq, Eq)]
pub struct Refused<T, E = CoreError> {
    /// Why.
    pub error: E,
    /// What was handed in.
    pub value: T,
}

impl<T, E> From<(E, T)> for Refused<T, E> {
    fn from((error, value): (E, T)) -> Refused<T, E> {
        Refused { error, value }
    }
}

impl<K, V, E> From<(E, K, V)> for Refused<(K, V), E> {
    fn from((error, key, value): (E, K, V)) -> Refused<(K, V), E> {
        Refused::from((error, (key, value)))
    }
}

impl<T, E: fmt::Display> fmt::Display for Refused<T, E> {
    fn fmt(&self, f: &mut fmt::Formatter<'_>) -> fmt::Result {
        self.error.fmt(f)
    }
}

#[cfg(feature = "std")]
impl<T, E: std::error::Error> std::error::Error for Refused<T, E> {
    fn source(&self) -> Option<&(dyn std::error::Error + 'static)> {
        self.error.source()
    }
}
