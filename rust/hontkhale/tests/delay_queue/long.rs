//! A queue over a year. Each gate makes a short run. The whole one, which tells how far it is:
//! `HONTKHALE_DAYS=365 cargo test --release --test delay_queue long::days -- --nocapture`.

use crate::draw::Draw;
use crate::kit::ms;
use hontkhale::{DelayQueue, Key, ManualClock};
use std::collections::VecDeque;
use std::env;
use std::time::Instant;

/// Ten entries a second, each due within ten seconds, with the stamps that a server's queue has. Now and then one is
/// extended or cancelled. In a year each of the slots in use is given away three million times, so that shards wear out
/// and their places are renewed, and nothing comes of it: no insert is refused, no deadline is missed, no memory is kept.
#[test]
fn days_of_ten_a_second() {
    let days = env::var("HONTKHALE_DAYS").map_or(0.05, |days| days.parse().expect("a number"));
    let clock = ManualClock::new();
    let queue = DelayQueue::builder().clock(&clock).build();
    let mut draw = Draw::new(0x5eed);
    let mut mine: VecDeque<(Key, Instant)> = VecDeque::new();
    let (mut inserted, mut ended, mut most_memory) = (0u64, 0u64, 0);
    let turns = (days * 864_000.0) as u64;
    for turn in 0..turns {
        let when = clock.now() + ms(1 + draw.below(10_000));
        let key = queue.insert_at(turn, when).expect("a queue takes entries for years");
        inserted += 1;
        mine.push_back((key, when));
        match draw.below(16) {
            0 => ended += u64::from(queue.cancel(&key).is_ok()),
            1 => {
                let (key, when) = mine[mine.len() / 2];
                // What came out meanwhile is refused.
                let _ = queue.extend_at(&key, when + ms(3));
            }
            _ => {}
        }
        if mine.len() > 64 {
            mine.pop_front();
        }
        clock.advance(ms(100));
        let now = clock.now();
        while let Ok(expired) = queue.try_recv() {
            assert!(expired.deadline <= now, "it is early");
            assert!(now - expired.deadline < ms(100), "it was missed");
            ended += 1;
        }
        if turn % 8_640_000 == 0 {
            let stats = queue.stats();
            most_memory = most_memory.max(stats.memory);
            println!("day {}: {stats}", turn / 864_000);
        }
    }
    most_memory = most_memory.max(queue.stats().memory);
    assert!(
        most_memory < 4 << 20,
        "it takes {most_memory} bytes for a hundred entries"
    );
    assert_eq!(inserted - ended, queue.len() as u64, "each entry ended once");
}
