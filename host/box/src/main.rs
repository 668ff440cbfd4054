//! The host test of a box (02, items 8 to 12): the archive's calls against a model of eight bays (model.rs) with ledgers in
//! exact integers (ledgers.rs), whose check, tick and ceiling are those of the other host tests, and every byte against the
//! layout (layout.rs); random lists of calls and a bay beside other traffic (lists.rs); boxes that no call has written
//! (foreign.rs). All buffers stand between guard pages. An argument replaces the seed. The last line is 'N passed, M failed'.
//! Rows of docs/DEMANDS.md that it tests: I8.1 to I12.25.
mod archive;
mod draw;
mod foreign;
mod layout;
mod ledgers;
mod lists;
mod memory;
mod model;
mod previews;
mod records;
mod tally;

use common::generate::Random;
use std::{env, process::ExitCode};
use tally::{Numbers, Tally, GREATEST};

fn main() -> ExitCode {
    let seed = env::args().nth(1).map_or(20_261_116, |s| s.parse().expect("the seed is a number"));
    println!("seed {seed}");
    let numbers: String = (0..=GREATEST).map(|n| format!("{n:>7}")).collect();
    println!("{:<20}{numbers}  failed", "numbers");
    let (mut tally, mut random) = (Tally::default(), Random(seed));
    lists::lists(&mut tally, &mut random, 6_000);
    let given = tally.close("lists");
    tally.reached(&given, 0, &[0, 1, 2, 3, 4, 5, 6, 7, 8, 9, 10, 13, 14, 18]);
    tally.reached(&given, 1, &[0, 1, 13]);
    tally.reached(&given, 2, &[0, 1, 12, 13, 19]); // a box that its calls alone have written never gives 11
    tally.reached(&given, 8, &[0, 1, 12, 13, 17]);
    others(&mut tally, &given);
    lists::isolation(&mut tally, &mut random, 1_500);
    tally.close("isolation");
    foreign::boxes(&mut tally, &mut random, 8_000);
    let given = tally.close("foreign");
    tally.reached(&given, 0, &[0, 1, 2, 3, 4, 5, 6, 7, 8, 9, 10, 13, 14, 18]);
    tally.reached(&given, 1, &[0, 1, 13]);
    tally.reached(&given, 2, &[0, 1, 2, 3, 4, 5, 6, 7, 8, 9, 10, 11, 12, 13, 18, 19]);
    tally.reached(&given, 8, &[0, 1, 2, 3, 4, 5, 6, 7, 8, 9, 10, 11, 12, 13, 17, 18]);
    others(&mut tally, &given);
    tally.counts.finish()
}

/// The calls on positions and on a ledger, and the readers, gave each of their numbers.
fn others(tally: &mut Tally, given: &Numbers) {
    tally.reached(given, 3, &[0, 1, 13, 15, 16]);
    tally.reached(given, 4, &[0, 1, 13, 15]);
    tally.reached(given, 5, &[0, 1, 13, 15]);
    tally.reached(given, 6, &[0, 1, 13]);
    tally.reached(given, 7, &[0, 1, 13]);
    tally.reached(given, 9, &[0, 1, 13]);
    tally.reached(given, 10, &[0, 1, 13]);
}
