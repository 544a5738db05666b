//! `peek` names the entry that the next poll gives.

mod common;

use common::{ends, ms, paused, Dice, Wakes};
use hontkhale_tokio::{delay_queue::Key, DelayQueue};
use std::sync::Arc;
use std::task::{Context, Poll, Waker};
use tokio::time::{advance, Instant};

#[test]
fn a_peek_between_the_pieces_of_a_slot() {
    ends(|| {
        paused().block_on(async {
            let mut queue = DelayQueue::new();
            queue.set_budget(1);
            let start = Instant::now();
            queue.insert_at("late", start + ms(8_000));
            let early = queue.insert_at("early", start + ms(4_100));
            advance(ms(4_096)).await;
            let waker = Waker::from(Arc::<Wakes>::default());
            for _ in 0..3 {
                assert_eq!(queue.peek(), Some(early));
                assert!(queue.poll_expired(&mut Context::from_waker(&waker)).is_pending());
            }
        });
    });
}

/// While the entry that was named stays as it is, a peek looks through nothing. Where each looked through all of these, five
/// million took longer than the limit.
#[test]
fn a_peek_takes_no_longer_where_many_wait() {
    ends(|| {
        paused().block_on(async {
            let mut queue = DelayQueue::new();
            let keys: Vec<Key> = (0..60_000).map(|at| queue.insert(at, ms(100_000 + at % 64))).collect();
            let first = queue.peek().expect("an entry");
            for _ in 0..5_000_000 {
                assert_eq!(queue.peek(), Some(first));
            }
            assert_eq!(keys.iter().map(|key| queue.deadline(key)).min(), Some(queue.deadline(&first)));
        });
    });
}

/// Drawn calls; each peek, and then a poll until something comes out.
#[test]
fn each_peek_names_what_the_next_poll_gives() {
    ends(|| {
        let waker = Waker::from(Arc::<Wakes>::default());
        let mut cx = Context::from_waker(&waker);
        let mut outs = 0;
        for seed in 1..=40 {
            paused().block_on(async {
                let mut dice = Dice(0x9e37_79b9_7f4a_7c15 ^ seed << 7);
                let mut queue = DelayQueue::with_capacity(dice.below(3) as usize * 40);
                let handle = if seed % 2 == 0 { Some(queue.handle()) } else { None };
                queue.set_budget([1, 7, 128, u32::MAX][seed as usize % 4]);
                let mut keys: Vec<Key> = Vec::new();
                for _ in 0..3_000 {
                    let most = [3, 90, 5_000, 300_000][dice.below(4) as usize];
                    let ahead = ms(dice.below(most));
                    let key = keys.get(dice.below(keys.len() as u64 + 1) as usize).copied();
                    match (dice.below(10), key) {
                        (0..=3, _) => keys.push(queue.insert(outs, ahead)),
                        (4, Some(key)) => {
                            let _ = queue.try_reset_at(&key, Instant::now() + ahead);
                        }
                        (5, Some(key)) => drop(queue.try_remove(&key)),
                        (6, Some(key)) => {
                            if let Some(handle) = &handle {
                                let _ =
                                    if dice.below(4) == 0 { handle.cancel(&key) } else { handle.extend(&key, ahead) };
                            }
                        }
                        (7, _) if dice.below(20) == 0 => queue.compact(),
                        (8, _) => advance(ms(dice.below(200))).await,
                        _ => {
                            let peeked = queue.peek();
                            if let Some(key) = peeked {
                                assert!(queue.try_deadline(&key).is_some(), "a key of an entry that is there");
                            }
                            match queue.poll_expired(&mut cx) {
                                Poll::Ready(Some(out)) => {
                                    assert_eq!(Some(out.key()), peeked);
                                    keys.retain(|key| *key != out.key());
                                    outs += 1;
                                }
                                Poll::Ready(None) => assert_eq!(peeked, None),
                                Poll::Pending => {}
                            }
                        }
                    }
                }
            });
        }
        assert!(outs > 4_000, "{outs}");
    });
}
