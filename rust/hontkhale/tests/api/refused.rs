//! Refusals that carry back what was handed in, by `?`.

use hontkhale::parts::cache::TtlCache;
use hontkhale::parts::owner::{shared_queue, CoreError, DelayCore, Keeper, Key, RenewError, VecWords, LAST_TICK};
use hontkhale::parts::shards::{QueueConfig, QueueError, SharedDelayQueue};
use hontkhale::parts::streams::{ExpiredStream, MillisecondTicks};
use hontkhale::parts::Refused;
use hontkhale::DelayQueue;
use std::error::Error;
use std::time::Duration;

/// It can't be shown, which no refusal asks of it.
#[derive(PartialEq)]
struct Mute(u8);

const FAR: u64 = LAST_TICK + 1;

const TOO_FAR: CoreError = CoreError::TooFar { limit: LAST_TICK };

fn into_one_owner(queue: &mut DelayCore<Mute, VecWords>) -> Result<Key, Refused<Mute>> {
    Ok(queue.insert(Mute(1), FAR)?)
}

fn into_shards(queue: &SharedDelayQueue<Mute>) -> Result<Key, Refused<Mute, QueueError>> {
    Ok(queue.insert(0, Mute(2), FAR)?)
}

fn into_a_shard_in_hand(queue: &SharedDelayQueue<Mute>) -> Result<Key, Refused<Mute>> {
    Ok(queue.enter(0).unwrap().insert(Mute(3), FAR)?)
}

fn into_a_cache(cache: &mut TtlCache<char, Mute>) -> Result<Option<Mute>, Refused<(char, Mute)>> {
    Ok(cache.put('k', Mute(5), FAR, 0)?)
}

#[test]
fn a_value_comes_back_by_the_question_mark() {
    let mut queue = DelayCore::with_capacity(1).unwrap();
    let refused = into_one_owner(&mut queue).unwrap_err();
    assert!(refused.error == TOO_FAR && refused.value == Mute(1));
    let queue = SharedDelayQueue::new(QueueConfig::of(1, 1)).unwrap();
    let refused = into_shards(&queue).unwrap_err();
    assert!(refused.error == QueueError::Core(TOO_FAR) && refused.value == Mute(2));
    let refused = into_a_shard_in_hand(&queue).unwrap_err();
    assert!(refused.error == TOO_FAR && refused.value == Mute(3));
    let mut cache = TtlCache::with_capacity(1).unwrap();
    let refused = into_a_cache(&mut cache).map(drop).unwrap_err();
    assert!(refused.error == TOO_FAR && refused.value == ('k', Mute(5)));
}

fn renewed(queue: &mut DelayCore<u8, Keeper>) -> Result<Keeper, Refused<Keeper, RenewError>> {
    let number = queue.shard();
    Ok(queue.renew(number, Keeper::new(1).unwrap())?)
}

fn streamed(queue: &SharedDelayQueue<u8>) -> Result<ExpiredStream<'_, u8, MillisecondTicks>, Box<dyn Error + '_>> {
    Ok(ExpiredStream::new(queue, 9, MillisecondTicks::new()).map_err(Refused::from)?)
}

#[test]
fn words_and_sources_come_back() {
    let mut queue = shared_queue(1).unwrap();
    let refused = renewed(&mut queue).unwrap_err();
    assert_eq!(refused.error, RenewError::UsedNumber { number: 0 });
    // What came back serves another time.
    assert!(queue.renew(1, refused.value).is_ok());
    let queue = SharedDelayQueue::new(QueueConfig::of(1, 1)).unwrap();
    assert_eq!(streamed(&queue).unwrap_err().to_string(), "there is no such shard");
}

#[test]
fn a_refusal_is_shown_as_its_error_is() {
    let refused = Refused::from((TOO_FAR, Mute(1)));
    assert_eq!(refused.to_string(), TOO_FAR.to_string());
    assert_eq!(format!("{refused:?}"), format!("Refused {{ error: {TOO_FAR:?}, .. }}"));
    let boxed: Box<dyn Error> = Box::new(refused);
    assert!(boxed.source().is_none());
}

/// The first number that is out of its range is named.
#[test]
fn a_bad_configuration_names_its_number() {
    let says = |shards, capacity, last_stamp| {
        let config = QueueConfig {
            shards,
            capacity,
            last_stamp,
        };
        let made = SharedDelayQueue::<u8>::new(config);
        assert_eq!(made.is_ok(), config.check().is_ok());
        config.check().map_err(|number| number.to_string())
    };
    assert_eq!(says(1, 1, 1), Ok(()));
    for (shards, capacity, last_stamp, said) in [
        (0, 0, 0, "the number of shards is 0, and not 1 to 64"),
        (65, 10, 10, "the number of shards is 65, and not 1 to 64"),
        (64, 65_537, 0, "the capacity is 65537, and not 1 to 65536"),
        (1, 65_536, 1_048_576, "the last stamp is 1048576, and not 1 to 1048575"),
    ] {
        assert_eq!(says(shards, capacity, last_stamp), Err(said.to_string()));
    }
    let refused = SharedDelayQueue::<u8>::new(QueueConfig::of(0, 1)).unwrap_err();
    assert!(refused.to_string().contains("its `check`"), "{refused}");
}

/// The error of a shard's queue is had from that of the whole.
#[test]
fn a_source_is_the_error_within() {
    let refused = QueueError::Core(TOO_FAR);
    let source = refused.source().and_then(|source| source.downcast_ref::<CoreError>());
    assert_eq!(source, Some(&TOO_FAR));
    assert!(QueueError::Unknown.source().is_none());
    // Of a refusal it is the same.
    assert!(Refused::from((refused, Mute(1))).source().is_some());
}

/// A value that is neither shown nor lasting is refused into a `Box<dyn Error>` by the question mark alone.
#[test]
fn a_refused_insert_of_the_one_queue_is_an_error() {
    fn inserted<'v>(queue: &DelayQueue<&'v Mute>, value: &'v Mute, after: Duration) -> Result<(), Box<dyn Error + 'v>> {
        queue.insert(value, after)?;
        Ok(())
    }
    let value = Mute(6);
    let queue = DelayQueue::new();
    assert!(inserted(&queue, &value, Duration::ZERO).is_ok());
    let refused = inserted(&queue, &value, Duration::MAX).unwrap_err();
    assert_eq!(refused.to_string(), "the deadline is too far");
    let refused = queue.insert(&value, Duration::MAX).unwrap_err();
    assert!(refused.into_inner() == &Mute(6) && queue.len() == 1);
}
