//! The host test of the tick: intake_tick of the archive against two implementations of document 01 on explicit terms,
//! by expansion of the label set (expansion.rs) and by rewriting (rewriting.rs), and a sequence with suspends against its
//! kernel form (kernel.rs); a tick with a read-back set also against other calls (readback.rs); then these
//! implementations by both orders of the signal rules (orders.rs). The reactions of each instant are held to the ceiling of
//! its sequence (ceiling.rs).
//! An argument replaces the seed. The last line is 'N passed, M failed'.
//! Rows of docs/DEMANDS.md that it tests: D1.3, D2.1 to D3.5 and those of items 1 to 7 that name it, such as I1.7 and I6.2.
use common::{generate::Random, table};
use std::{env, process::ExitCode};
use tick::reference::{self, Sequence};
use tick::tally::{Tally, NUMBERS};
use tick::{ceiling, examples, labels, orders, runs, small, ticks, vectors};

/// The lines of host/ticks.txt: what is written there by hand is what the reference gives, and the archive too.
fn by_hand(tally: &mut Tally) {
    for tick in ticks::read(include_str!("../../ticks.txt")) {
        let ticks::Tick { sequence, state, input, answer_length, .. } = &tick;
        let given = reference::tick(sequence, state, *input, *answer_length);
        tally.counts.expect(tick.gives(given), || format!("the reference on {}", tick.line));
        let mut paper = sequence.paper().filter(|_| *state == runs::record(0, 0));
        tally.compare(sequence, state, *input, *answer_length, paper.as_mut());
    }
}

/// Row 1: buffers of all lengths around the right ones, and such as a narrow counter would take for them.
fn lengths(tally: &mut Tally) {
    let lengths = || (0..=20).chain([255, 256, 265, 268, 273, 65_548, 65_553]);
    for bytes in ["", "0D", "00", "01 00", "00 00", "1025(00)"].map(table::bytes) {
        let sequence = Sequence::new(bytes, 0);
        for (state, answer) in lengths().flat_map(|s| lengths().map(move |a| (s, a))) {
            (0..3).for_each(|phase| {
                let mut record = vec![0; state];
                record.iter_mut().take(1).for_each(|byte| *byte = phase);
                tally.compare(&sequence, &record, 0, answer, None);
            });
        }
    }
}

fn main() -> ExitCode {
    let seed = env::args().nth(1).map_or(20_251_115, |s| s.parse().expect("the seed is a number"));
    println!("seed {seed}");
    let numbers: String = NUMBERS.iter().map(|n| format!("{n:>8}")).collect();
    println!("{:<16}{numbers}  failed", "numbers");
    let (mut tally, mut random) = (Tally::default(), Random(seed));
    by_hand(&mut tally);
    tally.close("by hand");
    vectors::vectors(&mut tally);
    tally.close("vectors");
    examples::examples(&mut tally);
    tally.close("examples");
    ceiling::ceilings(&mut tally);
    tally.close("ceilings");
    lengths(&mut tally);
    tally.close("buffers");
    labels::labels(&mut tally, &mut random);
    tally.close("labels");
    small::every_state(&mut tally);
    tally.close("small, states");
    small::every_set(&mut tally);
    tally.close("small, read back");
    small::every_run(&mut tally);
    tally.close("small, runs");
    small::every_run_with_sets(&mut tally);
    tally.close("runs, read back");
    small::every_delivery(&mut tally);
    tally.close("small, litres");
    runs::runs(&mut tally, &mut random, 200_000);
    tally.close("runs");
    runs::states(&mut tally, &mut random, 60_000);
    tally.close("states");
    runs::damaged(&mut tally, &mut random, 60_000);
    tally.close("damaged");
    let orders = orders::both(&mut tally, &mut random);
    tally.close("orders, changed");
    tally.reached();
    orders.reached(&mut tally);
    tally.counts.finish()
}
