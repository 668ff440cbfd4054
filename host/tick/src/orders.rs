//! Both orders of the signal rules (02, item 4), by the references alone: one instant from the same record on the same
//! input, as printed and with inheritance first. What is expected:
//!
//! - An instant that is not wrong by the new order has the records that it had by the printed one, the same litres and the
//!   same residual, and neither tree has an error.
//! - An instant whose answer record or next state changes uses, as printed, a signal that both runs emit while a run is
//!   wrong. An instant that uses such a signal is wrong by the new order. Said of the record as item 4 found it, without
//!   the number of reactions; where this alone changes, such a signal is used too.
//! - Both trees have the same first error, or none; that of the new order has no more reactions, and the other one is within
//!   the ceiling too.
//! - By the new order an instant is wrong exactly if its tree has an error.
//!
//! Where there is a paper, its instant is compared with that of the expansion by each order. Each instant that changes
//! is compared with the archive as well.
use crate::archive::ANSWER_LENGTH;
use crate::reference::{tick_by, Instant, Sequence};
use crate::rewriting::{Paper, Seen};
use crate::statement::Order;
use crate::tally::Tally;
use crate::{runs, small, ticks};
use common::generate::Random;
use common::reference::Labels;
use common::table::hex;

const COUNTED: [&str; 16] = [
    "by both orders",
    "the same, resumed",
    "the same, residuals compared",
    "the same, wrong by both",
    "the same, fewer errors by the new order",
    "the same, wrong by both, fewer reactions",
    "changed, from code 0",
    "changed, from code 1",
    "changed, from a greater code",
    "changed, small statements",
    "changed, resumed",
    "changed, a suspend stopped in one run",
    "changed, with a signal wrong with alone",
    "changed, with a signal wrong in both",
    "changed, with a read-back set",
    "changed, with a read-back signal reported",
];

#[derive(Default)]
pub struct Orders {
    counted: [u64; COUNTED.len()],
    changed: u64,
    small: bool,
}

/// Ticks by hand, all small statements, and random runs and states.
pub fn both(tally: &mut Tally, random: &mut Random) -> Orders {
    let mut orders = Orders::default();
    orders.by_hand(tally);
    orders.small = true;
    small::with_signals().for_each(|(bytes, read_back)| orders.every_state(tally, &Sequence::new(bytes, read_back)));
    orders.small = false;
    (0..60_000).for_each(|_| orders.run(tally, random));
    orders
}

/// Did another record come out, the number of reactions aside?
fn changed(old: &Instant, new: &Instant) -> bool {
    old.answer[..8] != new.answer[..8] || old.state != new.state
}

impl Orders {
    /// The lines of host/printed.txt: what they say is what the reference gives as printed, and the instant changes.
    fn by_hand(&mut self, tally: &mut Tally) {
        for tick in ticks::read(include_str!("../../printed.txt")) {
            let before = self.changed;
            let ticks::Tick { sequence, state, input, answer_length, .. } = &tick;
            let given = tick_by(Order::Printed, sequence, state, *input, *answer_length);
            tally.counts.expect(tick.gives(given), || format!("the reference, as printed, on {}", tick.line));
            let mut paper = sequence.paper().filter(|_| *state == runs::record(0, 0));
            self.compare(tally, sequence, state, *input, paper.as_mut());
            tally.counts.expect(self.changed == before + 1, || format!("not changed: {}", tick.line));
        }
    }

    /// A statement of one signal: runs of up to three instants, and one instant from every valid label set.
    fn every_state(&mut self, tally: &mut Tally, sequence: &Sequence) {
        let Ok(read) = &sequence.read else { return };
        self.every_run(tally, sequence, sequence.paper().as_ref(), &runs::record(0, 0), 3);
        let sets = (1..1 << read.tree.pauses().len()).map(|set: Labels| set << small::FIRST_LABEL);
        for labels in sets.filter(|labels| read.tree.valid(*labels)) {
            (0..2).for_each(|input| drop(self.compare(tally, sequence, &runs::record(1, labels), input, None)));
        }
    }

    fn every_run(&mut self, tally: &mut Tally, sequence: &Sequence, paper: Option<&Paper>, state: &[u8], ticks: usize) {
        for input in 0..2 {
            let mut paper = paper.cloned();
            let after = self.compare(tally, sequence, state, input, paper.as_mut());
            if let Some(after) = after.filter(|after| ticks > 1 && after[0] == 1) {
                self.every_run(tally, sequence, paper.as_ref(), &after, ticks - 1);
            }
        }
    }

    /// A random sequence: a run, and single instants from valid label sets.
    fn run(&mut self, tally: &mut Tally, random: &mut Random) {
        let sequence = runs::sequence(random);
        let (mut paper, mut state) = (sequence.paper(), runs::record(0, 0));
        for _ in 0..8 {
            let input = runs::input(random);
            let Some(after) = self.compare(tally, &sequence, &state, input, paper.as_mut()) else { break };
            state = after;
        }
        for _ in 0..4 {
            let state = runs::record(1, runs::valid_set(random, &sequence));
            let input = runs::input(random);
            self.compare(tally, &sequence, &state, input, None);
        }
    }

    /// One instant by both orders. The paper goes on as printed. Gives the state that the printed order leaves, or None
    /// if the tick is turned down.
    fn compare(
        &mut self,
        tally: &mut Tally,
        sequence: &Sequence,
        state: &[u8],
        input: u32,
        paper: Option<&mut Paper>,
    ) -> Option<Vec<u8>> {
        let ceiling = sequence.read.as_ref().ok()?.ceiling;
        let by = |order| tick_by(order, sequence, state, input, ANSWER_LENGTH);
        let (Ok(old), Ok(new)) = (by(Order::Printed), by(Order::InheritanceFirst)) else { return None };
        let (old_errors, new_errors) = (&old.tree.errors, &new.tree.errors);
        let (wrong, changed) = (new.answer[0] == 255, changed(&old, &new));
        let (more, fewer) = (new.tree.reactions > old.tree.reactions, new.tree.reactions < old.tree.reactions);
        let two_fit = old.tree.two_fit != [0; 3];
        let claims = [
            (wrong || !changed && old.answer == new.answer && old.litres() == new.litres(), "not wrong, and changed"),
            (wrong || old_errors.is_empty() && new_errors.is_empty(), "not wrong, and an error"),
            (!changed && !fewer || two_fit, "changed, and no two rules that fit"),
            (!more, "more reactions by the new order"),
            (ceiling.allows(state[0] == 0, old.tree.reactions), "more reactions than the ceiling"),
            (wrong || !two_fit, "not wrong, and two rules that fit"),
            (old_errors.first() == new_errors.first(), "another first error"),
            (wrong != new_errors.is_empty(), "wrong without an error, or an error and not wrong"),
        ];
        let told = || format!("{} | {} | {input:08X}", sequence.text(), hex(state));
        let broken = claims.iter().find(|(holds, _)| !holds);
        tally.counts.expect(broken.is_none(), || format!("orders, {broken:?}: {}", told()));
        self.count(sequence.read_back, state, (&old, &new), paper.is_some());
        if let Some(paper) = paper {
            let mut other = paper.clone();
            let agrees = |paper: &mut Paper, order, instant: &Instant| {
                let (seen, litres) = paper.tick(order, input, ANSWER_LENGTH);
                Seen::of(&instant.answer) == Some(seen)
                    && paper.phase() == instant.state[0]
                    && litres == instant.litres()
            };
            let agree = agrees(&mut other, Order::InheritanceFirst, &new) && agrees(paper, Order::Printed, &old);
            let holds = agree && (wrong || other == *paper);
            tally.counts.expect(holds, || format!("orders, papers or residuals: {}", told()));
        }
        if changed {
            self.changed += 1;
            tally.compare(sequence, state, input, ANSWER_LENGTH, None);
        }
        Some(old.state)
    }

    fn count(&mut self, read_back: u32, state: &[u8], (old, new): (&Instant, &Instant), paper: bool) {
        let changed = changed(old, new);
        let (resumed, wrong) = (state[0] == 1, new.answer[0] == 255);
        let kinds = [
            true,
            resumed,
            paper && !wrong,
            wrong && !changed,
            old.tree.errors.len() > new.tree.errors.len(),
            wrong && !changed && old.tree.reactions > new.tree.reactions,
            changed && old.answer[0] == 0,
            changed && old.answer[0] == 1,
            changed && old.answer[0] > 1,
            changed && self.small,
            changed && resumed,
            changed && old.tree.stopped_once > 0,
            changed && old.tree.two_fit[1] > 0,
            changed && old.tree.two_fit[2] > 0,
            changed && read_back != 0,
            changed && read_back.to_le_bytes().iter().zip(&old.answer[4..8]).any(|(set, emitted)| set & emitted != 0),
        ];
        (0..COUNTED.len()).for_each(|i| self.counted[i] += kinds[i] as u64);
    }

    /// Prints what was reached; with no instant that changes the orders would be one.
    pub fn reached(&self, tally: &mut Tally) {
        let all = COUNTED.into_iter().zip(self.counted).chain([("changed, in all", self.changed)]);
        for (name, count) in all {
            println!("{name:<40}{count:>10}");
            tally.counts.expect(count >= 100, || format!("{name} occurred only {count} times"));
        }
    }
}
