//! Read-back sets (02, item 5), beside the references that wrap the term. Each tick with a set that is not empty is
//! compared with other calls of the archive:
//!
//! - With the host's status of every read-back signal turned: the same number and records.
//! - After an instant that is not wrong, without a set, on the input in which each read-back signal has the status that
//!   the answer reports: the same number and records but for the reactions. The chosen run is that one, for each signal, and
//!   by the reference it delivers the same (item 12).
//! - The sequence with a signal command for each signal of the set in front of it, the lowest first, without a set, where
//!   length and depth leave room: the same number and state, the same answer but for the read-back signals in the emitted
//!   set, its places moved, those of the commands in front being 65535 with the set.
//! - Where the sequence names no signal of the set, without a set: the same number and records but for the reactions.
//! - The reactions (item 6) are those without a set, summed over every status of the set's signals, and one for each time
//!   that a declaration reacts: 2^n - 1 times for n signals.
use crate::archive::{tick, Call, Outcome, ANSWER_LENGTH};
use crate::reference::{instant, Instant, Sequence};
use crate::statement::{Order, OUTSIDE};
use common::counts::Counts;
use common::reference::{check, SIGNAL};
use common::table::hex;

const COUNTED: [&str; 22] = [
    "with a read-back set",
    "the same, resumed",
    "the same, resumed, with setpauses",
    "the same, six signals in sum",
    "read-back signal reported",
    "the same, code 1",
    "the same, code over 1",
    "the same, resumed",
    "two read-back signals reported",
    "read-back signal reported, tested present",
    "suspend stopped by a read-back signal",
    "another answer than without a set",
    "read-back signal hidden and emitted",
    "kind 2 at 65535",
    "kind 3 at 65535",
    "kind 2 or 3 at 65535, resumed",
    "wrong inside, with a read-back set",
    "the set names no signal of the sequence",
    "compared with the sequence written out",
    "the sequence written out is too long or deep",
    "number 6 by the set",
    "litres of a read-back signal",
];

#[derive(Default)]
pub struct ReadBack {
    counted: [u64; COUNTED.len()],
}

/// The sequence with its read-back signals declared in front of it.
pub struct Written {
    bytes: Vec<u8>,
    /// What the check on the tree says of it.
    number: u8,
    /// The bytes in front.
    moved: usize,
}

impl Written {
    pub fn of(bytes: &[u8], read_back: u32) -> Option<Written> {
        let signals = (0..32u8).filter(|signal| read_back >> signal & 1 == 1);
        let written: Vec<u8> = signals.flat_map(|signal| [SIGNAL, signal]).chain(bytes.iter().copied()).collect();
        let (number, moved) = (check(&written, 0).err().unwrap_or(0), written.len() - bytes.len());
        (read_back != 0).then_some(Written { bytes: written, number, moved })
    }

    /// The answer record of an instant, as the sequence with the set gives it but for the set.
    fn back(&self, answer: &[u8]) -> Vec<u8> {
        let mut back = answer.to_vec();
        if let [0xFF, _, low, high, ..] = &mut back[..] {
            let place = *low as usize + 256 * *high as usize;
            let there = place.checked_sub(self.moved).unwrap_or(OUTSIDE);
            (*low, *high) = ((there % 256) as u8, (there / 256) as u8);
        }
        back
    }

    /// Is this what the sequence written out gives, where that gives `own`?
    fn agrees(&self, set: u32, outcome: &Outcome, own: &Outcome) -> bool {
        match (self.number, outcome.number) {
            (0, 0) => {
                let answers = outcome.answer.as_ref().zip(own.answer.as_ref());
                let fits = answers.is_some_and(|(answer, own)| without(answer, set) == self.back(own));
                own.number == 0 && own.state == outcome.state && fits
            }
            (0, number) => own.number == number,
            (number, of_tick) => matches!(number, 2 | 6) && own.number == if of_tick == 1 { 1 } else { number },
        }
    }
}

/// The answer record of an instant without some signals.
fn without(answer: &[u8], signals: u32) -> Vec<u8> {
    let kept = [0; 4].into_iter().chain(signals.to_le_bytes()).chain([0; 4]);
    answer.iter().zip(kept).map(|(byte, signals)| byte & !signals).collect()
}

fn emitted(answer: &[u8]) -> u32 {
    answer[4..8].iter().rev().fold(0, |set, byte| set << 8 | *byte as u32)
}

fn same(one: &Outcome, other: &Outcome) -> bool {
    one.number == other.number && one.state.is_some() && one.state == other.state && one.answer == other.answer
}

/// The same, but for the reactions of an instant.
fn shows_the_same(one: &Outcome, other: &Outcome) -> bool {
    match (one.number, &one.answer, &other.answer) {
        (0, Some(answer), Some(others)) => {
            other.number == 0 && one.state.is_some() && one.state == other.state && answer.get(..8) == others.get(..8)
        }
        _ => same(one, other),
    }
}

/// The number of reactions that an accepted tick tells.
fn reactions(outcome: &Outcome) -> Option<u64> {
    let told = outcome.answer.as_ref().filter(|answer| outcome.number == 0 && answer.len() == ANSWER_LENGTH)?;
    Some(told[8..].iter().rev().fold(0, |number, byte| number << 8 | *byte as u64))
}

/// All subsets of a set.
fn subsets(set: u32) -> impl Iterator<Item = u32> {
    let mut next = Some(set);
    std::iter::from_fn(move || {
        let subset = next?;
        next = (subset != 0).then(|| (subset - 1) & set);
        Some(subset)
    })
}

/// The reactions of all runs of the declarations of a set: of the sequence for each status of them, and their own.
fn in_all_runs(set: u32, bare: impl Fn(u32) -> Outcome) -> Option<u64> {
    let sum = subsets(set).map(|present| reactions(&bare(present))).sum::<Option<u64>>()?;
    Some(sum + (1 << set.count_ones()) - 1)
}

impl ReadBack {
    /// A tick of the archive with a set that is not empty, and what the reference gives.
    pub fn compare(
        &mut self,
        counts: &mut Counts,
        sequence: &Sequence,
        tried: Call,
        expected: &Result<Instant, u8>,
        outcome: &Outcome,
    ) {
        let Call { state, input, answer_length, .. } = tried;
        let (bytes, set) = sequence.program();
        let call = |program, input| tick(program, Call { input, ..tried });
        let mut expect = |holds: bool, what: &str, other: &Outcome| {
            counts.expect(holds, || {
                let tick = format!("{} | {} | {answer_length} | {input:08X}", sequence.text(), hex(state));
                format!("{tick}: {}, {what} {}", outcome.text(), other.text())
            });
        };
        let turned = call((bytes, set), input ^ set);
        expect(same(outcome, &turned), "with the host's bits turned", &turned);
        if !names(sequence, set) {
            let own = call((bytes, 0), input);
            expect(shows_the_same(outcome, &own), "without a set, which is not named,", &own);
        }
        if let (Some(written), true) = (&sequence.written, answer_length == ANSWER_LENGTH) {
            let own = call((&written.bytes, 0), input);
            expect(written.agrees(set, outcome, &own), "written out", &own);
        }
        match expected {
            Ok(instant) => {
                let chosen = chosen(sequence, state, input, instant);
                if instant.answer[0] != 255 {
                    let own = call((bytes, 0), input & !set | emitted(&instant.answer) & set);
                    expect(shows_the_same(outcome, &own), "without a set, on what is reported,", &own);
                    let same = chosen.as_ref().is_some_and(|chosen| chosen.deliveries == instant.deliveries);
                    expect(same, "other litres without a set, on what is reported,", &own);
                }
                let all = in_all_runs(set, |present| call((bytes, 0), input & !set | present));
                expect(all.is_some() && all == reactions(outcome), &format!("reactions of all runs {all:?},"), outcome);
                self.count(sequence, state, input, instant, chosen);
            }
            Err(6) => self.counted[20] += (check(bytes, 0).err() != Some(6)) as u64,
            Err(_) => {}
        }
    }

    fn count(&mut self, sequence: &Sequence, state: &[u8], input: u32, whole: &Instant, chosen: Option<Instant>) {
        let Ok(read) = &sequence.read else { return };
        let set = sequence.read_back;
        let (code, kind, tree) = (whole.answer[0], whole.answer[1], &whole.tree);
        let (resumed, wrong) = (state[0] == 1, code == 255);
        let reported = emitted(&whole.answer) & set;
        let outside = wrong && whole.answer[2..4] == [0xFF, 0xFF];
        let bare = |input| instant(Order::InheritanceFirst, &read.tree, &read.bare, state, input).ok();
        let found = chosen.as_ref().map_or(0, |chosen| chosen.tree.found & reported);
        let stopping = chosen.as_ref().map_or(0, |chosen| chosen.tree.stopping & reported);
        let other = bare(input).is_some_and(|bare| bare.answer[..8] != whole.answer[..8] || bare.state != whole.state);
        let written = sequence.written.as_ref().is_some_and(|written| written.number == 0);
        let kinds = [
            true,
            resumed,
            resumed && sequence.setpauses() > 0,
            set.count_ones() as usize + read.tree.nesting() == 6,
            reported != 0,
            reported != 0 && code == 1,
            reported != 0 && code > 1,
            reported != 0 && resumed,
            reported.count_ones() > 1,
            found != 0,
            stopping != 0,
            other,
            tree.hiding > 0 && !wrong,
            outside && kind == 2,
            outside && kind == 3,
            outside && resumed,
            wrong && !outside,
            !names(sequence, set),
            written,
            !written,
            false,
            whole.deliveries.iter().any(|delivery| set >> delivery.0 & 1 == 1),
        ];
        (0..COUNTED.len()).for_each(|i| self.counted[i] += kinds[i] as u64);
    }

    /// Prints what was reached; a test that does not get there would show nothing.
    pub fn reached(&self, counts: &mut Counts) {
        for (name, count) in COUNTED.into_iter().zip(self.counted) {
            println!("{name:<44}{count:>10}");
            counts.expect(count >= 100, || format!("{name} occurred only {count} times"));
        }
    }
}

/// The instant without a set on what a whole one that is not wrong reports, by the reference.
fn chosen(sequence: &Sequence, state: &[u8], input: u32, whole: &Instant) -> Option<Instant> {
    let (read, set) = (sequence.read.as_ref().ok().filter(|_| whole.answer[0] != 255)?, sequence.read_back);
    let reported = input & !set | emitted(&whole.answer) & set;
    instant(Order::InheritanceFirst, &read.tree, &read.bare, state, reported).ok()
}

/// Does a command name a signal of the set? Of a sequence that is turned down this is not asked.
fn names(sequence: &Sequence, set: u32) -> bool {
    let Ok(read) = &sequence.read else { return true };
    read.tree.0.iter().any(|c| [0x02, 0x07, 0x08, 0x0B, 0x0C].contains(&c.byte) && set >> c.operand & 1 == 1)
}
