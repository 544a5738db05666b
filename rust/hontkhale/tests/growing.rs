//! A row of cores: drawn calls beside a model of it, memory that is refused, and the queue that is driven by it.
//!
//! The seeds are fixed. `HONTKHALE_CALLS=10000000` makes ten million drawn calls.

// The tests ask for a newer Rust than the crate.
#![allow(clippy::incompatible_msrv)]

#[path = "models/draw.rs"]
mod draw;
#[path = "growing/lives.rs"]
mod lives;
#[path = "growing/model.rs"]
mod model;
#[path = "growing/queue.rs"]
mod queue;
#[allow(dead_code)]
#[path = "memory/refusing.rs"]
mod refusing;
#[path = "growing/run.rs"]
mod run;
#[path = "growing/store.rs"]
mod store;
#[path = "models/value.rs"]
mod value;

mod drawn {
    //! Drawn calls of a row of cores, and of a store, each answer of which the model knows.

    use super::draw::{calls, Draw};
    use super::run::Run;
    use super::store;

    // The calls of a round, each as often as its weight.
    type Calls<R> = &'static [(u64, fn(&mut R))];

    const CALLS: Calls<Run> = &[
        (30, Run::insert),
        (3, Run::remove),
        (14, Run::reset),
        (4, Run::deadline),
        (4, Run::reap),
        (10, Run::extend),
        (5, Run::cancel),
        (4, Run::look),
        (12, Run::polls),
        (3, Run::polls_all),
        (2, Run::next_wake),
        (2, Run::peek),
        (8, Run::take_deferred),
        (4, Run::sweep_some),
        (6, Run::exchange),
        (1, Run::take_refused),
        (10, Run::take_drained),
        (8, Run::unfold),
        (4, Run::open),
        (2, Run::cores),
    ];

    const STORE_CALLS: Calls<store::Run> = &[
        (30, store::Run::insert),
        (4, store::Run::remove),
        (6, store::Run::remove_if_due),
        (14, store::Run::reset),
        (10, store::Run::relocate),
        (4, store::Run::deadline),
        (6, store::Run::with_value),
        (12, store::Run::step),
        (4, store::Run::reap),
        (14, store::Run::poll),
        (4, store::Run::hint),
        (8, store::Run::take_deferred),
        (4, store::Run::sweep),
        (4, store::Run::names),
        (8, store::Run::exchange),
        (1, store::Run::take_refused),
        (6, store::Run::take_needless),
        (4, store::Run::take_drained),
        (1, store::Run::close),
        (6, store::Run::find_room),
    ];

    /// How many calls are made of one row.
    const ROUND: u64 = 2_000;

    fn draws<R>(run: &mut R, calls: Calls<R>, draw: fn(&mut R) -> &mut Draw) {
        let all: u64 = calls.iter().map(|it| it.0).sum();
        for _ in 0..ROUND {
            let mut drawn = draw(run).below(all);
            let call = calls.iter().find(|it| {
                let is_it = drawn < it.0;
                drawn = drawn.saturating_sub(it.0);
                is_it
            });
            call.expect("a call of that weight").1(run);
        }
    }

    // promise: growing.number growing.insert growing.reset growing.poll growing.poll-some growing.take-drained growing.folds
    #[test]
    fn drawn_calls_of_a_row_answer_as_the_model_does() {
        for round in 0..calls().div_ceil(ROUND) {
            let mut run = Run::new(round);
            draws(&mut run, CALLS, |run| &mut run.draw);
            run.ends();
        }
    }

    // promise: core.next-key growing.by-id growing.notes growing.remove-if-due growing.upkeep growing.take-drained growing.sizing growing.hint
    #[test]
    fn drawn_calls_of_a_store_answer_as_the_model_does() {
        for round in 0..calls().div_ceil(ROUND) {
            let mut run = store::Run::new(round);
            draws(&mut run, STORE_CALLS, |run| &mut run.draw);
            run.ends();
        }
    }
}
