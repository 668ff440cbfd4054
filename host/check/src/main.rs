//! The host test: intake_check and intake_ceiling of the archive against the check of document 01 and the ceiling of 02, item 6,
//! on an explicit tree, with read-back sets.
//! An argument replaces the seed. The last line is 'N passed, M failed'.
//! Rows of docs/DEMANDS.md that it tests: D1.2 and R.2 to R.10 with R.18.
mod edges;

use common::counts::Counts;
use common::generate::{self, Random, Style};
use common::{reference, table};
use std::{env, process::ExitCode};
use tick::ceiling::Ceiling;

extern "C" {
    fn intake_check(sequence: *const u8, length: usize, read_back: u32) -> u8;
    fn intake_ceiling(sequence: *const u8, length: usize, read_back: u32) -> u32;
}

fn archive(bytes: &[u8], read_back: u32) -> (u8, u32) {
    let (start, length) = (bytes.as_ptr(), bytes.len());
    // Safe: the slice's own pointer and length.
    unsafe { (intake_check(start, length, read_back), intake_ceiling(start, length, read_back)) }
}

/// What the check answers.
const NUMBERS: [usize; 11] = [0, 2, 3, 4, 5, 6, 7, 8, 9, 10, 18];
const GREATEST: usize = 18;

/// What is counted of the checks with a read-back set.
const SETS: [&str; 10] = [
    "accepted with a set",
    "the same, six signals in sum",
    "the same, of a name that is declared",
    "the same, depth 64",
    "6 by the set, seven in sum",
    "6 by the set alone",
    "6 by the set, all 32 signals",
    "6 by the set before 7",
    "6 by the set before 8 to 10",
    "2 to 5 and 18 before 6 by the set",
];

/// The comparisons so far.
#[derive(Default)]
struct Tally {
    counts: Counts,
    /// How often each number was the answer, in the group that runs.
    numbers: [u64; GREATEST + 1],
    /// The most pauses, setpauses, suspends, deliveries, levels and signals around a command in an accepted sequence of the
    /// group.
    most: [usize; 6],
    /// Of all groups.
    sets: [u64; SETS.len()],
    /// The least and the greatest ceiling of all groups.
    ceilings: Option<(u64, u64)>,
}

impl Tally {
    /// Compares the archive with the tree, and with the number written by hand where there is one.
    fn compare(&mut self, bytes: &[u8], read_back: u32, by_hand: Option<u8>) {
        let tree = reference::check(bytes, read_back);
        let number = tree.as_ref().err().copied().unwrap_or(0);
        let ceiling = tree.as_ref().map_or(0, |tree| Ceiling::of(tree, read_back).most());
        self.numbers[number as usize] += 1;
        if number == 0 {
            let (least, most) = self.ceilings.unwrap_or((ceiling, ceiling));
            self.ceilings = Some((least.min(ceiling), most.max(ceiling)));
        }
        if read_back != 0 {
            self.count_set(bytes, read_back, &tree);
        }
        if let Ok(tree) = tree {
            let [suspends, deliveries] =
                [reference::SUSPEND, reference::DELIVER].map(|byte| tree.0.iter().filter(|c| c.byte == byte).count());
            let (pauses, setpauses) = (tree.pauses().len(), tree.setpauses().len());
            let reached = [pauses, setpauses, suspends, deliveries, levels(&tree), tree.nesting()];
            self.most = std::array::from_fn(|i| self.most[i].max(reached[i]));
        }
        let (answer, most) = archive(bytes, read_back);
        let program = || format!("{} & {read_back:08X}", table::hex(bytes));
        self.counts.expect(answer == number && by_hand.unwrap_or(number) == number, || {
            format!("archive {answer}, tree {number}, by hand {by_hand:?}: {}", program())
        });
        self.counts.expect(most as u64 == ceiling, || format!("ceiling {most}, tree {ceiling}: {}", program()));
    }

    fn count_set(&mut self, bytes: &[u8], read_back: u32, tree: &Result<reference::Tree, u8>) {
        let size = read_back.count_ones() as usize;
        let kinds = match tree {
            Ok(tree) => {
                let declares = |c: &reference::Command| c.byte == reference::SIGNAL && read_back >> c.operand & 1 == 1;
                let six = size + tree.nesting() == 6 && tree.nesting() > 0;
                let mut kinds = [false; SETS.len()];
                kinds[..4].copy_from_slice(&[true, six, tree.0.iter().any(declares), levels(tree) == 64]);
                kinds
            }
            Err(6) => {
                let bare = reference::check(bytes, 0);
                let (number, nesting) =
                    (bare.as_ref().err().copied().unwrap_or(0), bare.map_or(0, |tree| tree.nesting()));
                let by_set = number != 6;
                let mut kinds = [false; SETS.len()];
                kinds[4] = number == 0 && size + nesting == 7;
                kinds[5..9].copy_from_slice(&[
                    by_set && size > 6,
                    by_set && size == 32,
                    number == 7,
                    by_set && number > 7,
                ]);
                kinds
            }
            Err(number) => std::array::from_fn(|i| i == 9 && size > 6 && (*number < 6 || *number == 18)),
        };
        (0..SETS.len()).for_each(|i| self.sets[i] += kinds[i] as u64);
    }

    /// Prints what the group `name` answered and begins the next one.
    fn close(&mut self, name: &str) {
        let numbers: String = NUMBERS.iter().map(|n| format!("{:>9}", self.numbers[*n])).collect();
        println!("{name:<16}{numbers}{:>9}", self.counts.close());
        *self = Tally { counts: self.counts, sets: self.sets, ceilings: self.ceilings, ..Tally::default() };
    }

    /// Prints what was reached with read-back sets; a test that does not get there would show nothing.
    fn reached(&mut self) {
        for (name, count) in SETS.into_iter().zip(self.sets) {
            println!("{name:<40}{count:>10}");
            self.counts.expect(count >= 100, || format!("{name} occurred only {count} times"));
        }
        let (least, most) = self.ceilings.unwrap_or((0, 0));
        println!("ceilings from {least} to {most}");
        self.counts.expect(least == 1 && most > 2_000_000, || "too far from the greatest ceiling".into());
    }
}

fn levels(tree: &reference::Tree) -> usize {
    tree.0.iter().map(|c| c.place.len() + 1).max().unwrap_or(0)
}

/// A read-back set for a sequence: empty, of names in it, one that just fits or is one too large, any, or all signals.
fn read_back(random: &mut Random, bytes: &[u8]) -> u32 {
    match random.below(8) {
        0 | 1 => 0,
        2 | 3 => generate::read_back(random, bytes, 6),
        4 | 5 => {
            let room = 6 - reference::check(bytes, 0).map_or(0, |tree| tree.nesting());
            let count = room + random.below(2);
            generate::set_of(random, count)
        }
        6 => random.below(1 << 32) as u32,
        _ => u32::MAX,
    }
}

/// 206,200 sequences: 25 of each length from 0 to 1,030, of its fourth, eighth and sixteenth part, and all damaged.
fn random_sequences(tally: &mut Tally, random: &mut Random) {
    for length in (0..=1030).flat_map(|n| [n, n / 4, n / 8, n / 16]).cycle().take(25 * 4 * 1031) {
        let style = Style::any(random);
        let sequence = generate::sequence(random, style, length);
        for bytes in [generate::damaged(random, &sequence), sequence.bytes] {
            tally.compare(&bytes, 0, None);
            let read_back = read_back(random, &bytes);
            if read_back != 0 {
                tally.compare(&bytes, read_back, None);
            }
        }
    }
    // A generator that does not get there would test nothing.
    for number in NUMBERS {
        let count = tally.numbers[number];
        tally.counts.expect(count >= 100, || format!("the number {number} occurred only {count} times"));
    }
    let [pauses, setpauses, suspends, deliveries, levels, signals] = tally.most;
    print!("accepted: up to {pauses} pauses, {setpauses} setpauses, {suspends} suspends, {deliveries} deliveries, ");
    println!("depth {levels}, {signals} signals");
    let far = pauses < reference::LABELS || setpauses <= 100 || suspends <= 100 || levels < 64 || signals < 6;
    tally.counts.expect(!far && deliveries > 20, || "too far from the limits".into());
}

/// Sets of no signal to seven, from the lowest on, and all.
const EDGES: [u32; 9] = [0, 1, 3, 7, 0xF, 0x1F, 0x3F, 0x7F, u32::MAX];

/// The same, from the highest on.
fn edge(turn: usize) -> u32 {
    let set = EDGES[turn % EDGES.len()];
    if turn / EDGES.len() % 2 == 0 {
        set
    } else {
        set.reverse_bits()
    }
}

fn main() -> ExitCode {
    let seed = env::args().nth(1).map_or(20_251_115, |s| s.parse().expect("the seed is a number"));
    println!("seed {seed}");
    let numbers: String = NUMBERS.iter().map(|n| format!("{n:>9}")).collect();
    println!("{:<16}{numbers}   failed", "answers");
    let mut tally = Tally::default();
    for (number, text) in table::lines(include_str!("../../examples.txt")) {
        let (bytes, read_back) = table::program(text);
        tally.compare(&bytes, read_back, Some(number));
    }
    tally.close("examples");
    edges::byte_strings(|bytes| EDGES.iter().for_each(|set| tally.compare(bytes, *set, None)));
    tally.close("byte strings");
    let mut turn = 0;
    // Without a set, and with the sets in turn: every sequence, every second one, every eighth.
    let mut with_sets = |tally: &mut Tally, bytes: &[u8], each: usize| {
        turn += 1;
        tally.compare(bytes, 0, None);
        if turn % each == 0 {
            tally.compare(bytes, edge(turn / each), None);
        }
    };
    edges::reading(|bytes| with_sets(&mut tally, bytes, 1));
    tally.close("edges, 2 to 7");
    edges::litres(|bytes| with_sets(&mut tally, bytes, 16));
    tally.close("edges, 18");
    edges::nested(&EDGES, |bytes, set| tally.compare(bytes, set, None));
    tally.close("edges, 6 by set");
    edges::labels(|bytes| with_sets(&mut tally, bytes, 2));
    tally.close("edges, 8 to 10");
    edges::small_trees(|bytes| with_sets(&mut tally, bytes, 8));
    tally.close("small trees");
    random_sequences(&mut tally, &mut Random(seed));
    tally.close("random");
    tally.reached();
    tally.counts.finish()
}
