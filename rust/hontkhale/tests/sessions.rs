//! Idle sessions over several shards: a call touches the shard that it names, and does there what it says and no more.

use hontkhale::parts::owner::Turn;
use hontkhale::parts::sessions::IdleSessions;
use hontkhale::parts::shards::QueueConfig;

const SHARDS: usize = 3;

/// Three sessions in each of three shards, which begin at ticks 1 to 3 and end 10 ticks later.
fn sessions() -> IdleSessions {
    let sessions = IdleSessions::new(QueueConfig::of(SHARDS, 8), 10).expect("sessions");
    for now in 1..=3 {
        for route in 0..SHARDS {
            let key = sessions.login(route as u64, &format!("{route} at {now}"), now);
            assert_eq!(key.expect("room").entry().shard() as usize, route);
        }
    }
    sessions
}

/// The name of the session that ended, and when it did; or the tick to wait for, if there is one.
type Answer = Result<(String, u64), Option<u64>>;

fn next_idle(sessions: &IdleSessions, shard: usize, now: u64) -> Answer {
    match sessions.next_idle(shard, now).expect("a shard") {
        Turn::Out(ended) => Ok((ended.value.text().to_owned(), ended.deadline)),
        Turn::Waiting { next } => Err(Some(next)),
        Turn::Idle => Err(None),
    }
}

#[test]
fn a_call_leaves_the_other_shards() {
    let sessions = sessions();
    for shard in 0..SHARDS {
        for began in 1..=3 {
            let ended = next_idle(&sessions, shard, 100);
            assert_eq!(ended, Ok((format!("{shard} at {began}"), began + 10)));
        }
        assert_eq!(next_idle(&sessions, shard, 100), Err(None));
    }
    let queue = sessions.into_queue();
    for shard in 0..SHARDS {
        let tally = queue.tally(shard).expect("a shard");
        assert_eq!(
            (tally.inserted, tally.expired, tally.linked),
            (3, 3, 0),
            "of shard {shard}"
        );
    }
}

#[test]
fn a_login_notes_no_tick_and_a_poll_sweeps_nothing() {
    let sessions = sessions();
    let mut handle = sessions.handle().expect("a handle");
    let key = sessions.login(0, "leaves", 50).expect("room");
    assert_eq!(sessions.logout(&mut handle, &key), Ok(60));
    assert_eq!(
        next_idle(&sessions, 0, 5),
        Err(Some(11)),
        "at tick 50 something would be due"
    );
    handle.give_back();
    let queue = sessions.into_queue();
    let tally = queue.tally(0).expect("a shard");
    assert_eq!(
        (tally.inserted, tally.cancelled, tally.linked),
        (4, 0, 4),
        "what was cancelled waits for its tick"
    );
    assert_eq!(queue.enter(0).expect("a shard").noted(), 5);
}
