//! The host test: intake_unroll of the archive against loops written out on an explicit tree, and the runs of the results
//! against those of their originals. An argument replaces the seed. The last line is 'N passed, M failed'.
//! Rows of docs/DEMANDS.md that it tests: I13.2 to I13.12.
mod archive;
mod unroller;

use archive::{Bays, RESULT_LENGTH};
use common::counts::Counts;
use common::generate::Random;
use common::reference::{self, DELIVER, LOOP, SUSPEND};
use common::table::{self, hex};
use std::{env, process::ExitCode};
use tick::archive::{Call, ANSWER_LENGTH};
use tick::reference::Sequence;
use tick::runs;
use unroller::{unroll, Unrolled};

const NUMBERS: [u8; 14] = [0, 1, 2, 3, 4, 5, 6, 7, 8, 9, 10, 18, 20, 21];

/// What is counted of the random sequences and of their runs.
const EVENTS: [&str; 18] = [
    "written out",
    "the same, no loop",
    "the same, loops in loops",
    "the same, a local signal in a loop",
    "the same, a suspend in a loop",
    "the same, litres in a loop",
    "the same, with a read-back set",
    "21 by the length alone",
    "21 by the depth alone",
    "20 and too large",
    "instants compared",
    "the same, resumed",
    "the same, litres not 0",
    "runs up to a wrong instant",
    "the same, not wrong when written out",
    "runs to the end",
    "ledgers compared that are not empty",
    "19 of both",
];

struct Tally {
    counts: Counts,
    numbers: [u64; 256],
    events: [u64; EVENTS.len()],
    fill: u8,
}

/// The number, and the result where it is 0.
fn expected(bytes: &[u8], read_back: u32, buffer_length: usize) -> (u8, Vec<u8>) {
    if buffer_length != RESULT_LENGTH {
        return (1, Vec::new());
    }
    match reference::check(bytes, read_back) {
        Err(number) => (number, Vec::new()),
        Ok(tree) if !tree.setpauses().is_empty() => (20, Vec::new()),
        Ok(tree) => match unroll(bytes, &tree) {
            Unrolled { bytes, depth } if bytes.len() > RESULT_LENGTH || depth > 64 => (21, Vec::new()),
            Unrolled { bytes, .. } => (0, bytes),
        },
    }
}

impl Tally {
    /// Compares the archive's number, length and buffer with those of the tree and with those by hand, if there are any.
    fn compare(
        &mut self,
        bytes: &[u8],
        read_back: u32,
        buffer_length: usize,
        by_hand: Option<(u8, Vec<u8>)>,
    ) -> Option<Vec<u8>> {
        self.fill = self.fill.wrapping_mul(5).wrapping_add(1);
        let (number, result) = expected(bytes, read_back, buffer_length);
        let outcome = archive::unroll(bytes, read_back, buffer_length, self.fill);
        let mut buffer = result.clone();
        buffer.resize(buffer_length, self.fill);
        self.numbers[number as usize] += 1;
        let same =
            outcome.number == number && outcome.length == result.len() && outcome.buffer.as_ref() == Some(&buffer);
        let same = same && by_hand.is_none_or(|by_hand| by_hand == (number, result.clone()));
        self.counts.expect(same, || {
            let program = format!("{} & {read_back:08X} | {buffer_length}", hex(bytes));
            let given = outcome.buffer.as_deref().map_or("guards gone".into(), hex);
            format!("{program}: {}, {} | {given}, not {number} | {}", outcome.number, outcome.length, hex(&result))
        });
        (number == 0).then_some(result)
    }

    /// The result is accepted with the same set; without a loop it is the original, and else it has a setpause or no pause.
    fn accepted(&mut self, bytes: &[u8], read_back: u32, result: &[u8]) {
        let number = archive::check(result, read_back);
        self.counts.expect(number == 0, || format!("{number}: {} & {read_back:08X}", hex(result)));
        let loops = reference::check(bytes, read_back).is_ok_and(|tree| tree.0.iter().any(|c| c.byte == LOOP));
        self.counts.expect(loops || bytes == result, || format!("not the original: {}", hex(bytes)));
    }

    /// Both from a cleared record on the same inputs, up to the original's last instant before a wrong one.
    fn runs(&mut self, original: &Sequence, result: &Sequence, random: &mut Random) {
        let mut state = runs::record(0, 0);
        for _ in 0..random.pick(&[4, 8, 16, 40]) {
            let call =
                Call { state: &state, input: runs::input(random), answer_length: ANSWER_LENGTH, fill: self.fill };
            let own = tick::archive::tick(original.program(), call);
            let other = tick::archive::tick(result.program(), call);
            if own.number == 0 && own.answer.as_ref().is_some_and(|answer| answer[0] == 255) {
                self.events[13] += 1;
                self.events[14] += other.answer.as_ref().is_some_and(|answer| answer[0] != 255) as u64;
                return;
            }
            let uncounted = |answer: &Option<Vec<u8>>| answer.as_ref().map(|bytes| bytes[..8].to_vec());
            let same = own.number == other.number && own.state.is_some() && own.state == other.state;
            let same = same && uncounted(&own.answer).is_some() && uncounted(&own.answer) == uncounted(&other.answer);
            let litres = |s| tick::reference::tick(s, &state, call.input, ANSWER_LENGTH).map(|i| i.litres());
            let (delivered, other_delivered) = (litres(original), litres(result));
            self.counts.expect(same && delivered == other_delivered, || {
                format!("{} from {}: {}, not {}", result.text(), hex(&state), other.text(), own.text())
            });
            self.events[10] += (own.number == 0) as u64;
            self.events[11] += (own.number == 0 && state[0] == 1) as u64;
            self.events[12] += delivered.is_ok_and(|litres| !litres.is_empty()) as u64;
            state = own.state.unwrap_or(state);
            if state[0] == 2 {
                self.events[15] += 1;
                return;
            }
        }
    }

    /// Both in a box, on the same inputs: the same numbers and codes, 19 included, and the same ledgers before a wrong instant.
    fn ledgers(&mut self, original: &Sequence, result: &Sequence, random: &mut Random) {
        let mut bays = Bays::new();
        if bays.admit(0, original.program()) != 0 || bays.admit(1, result.program()) != 0 {
            return; // one of them is above the ceiling
        }
        for _ in 0..random.pick(&[4, 16]) {
            let input = runs::input(random);
            let (own, other) = (bays.tick(0, input), bays.tick(1, input));
            if own == (0, 255) {
                return;
            }
            let ledgers = (bays.ledger(0), bays.ledger(1));
            self.counts.expect(own == other && ledgers.0 == ledgers.1, || {
                format!("{}: {own:?} and {other:?}, {} and {}", original.text(), hex(&ledgers.0), hex(&ledgers.1))
            });
            self.events[16] += ledgers.0.iter().any(|byte| *byte != 0) as u64;
            self.events[17] += (own.0 == 19) as u64;
        }
    }

    fn count(&mut self, original: &Sequence, result: Option<&Vec<u8>>) {
        let Ok(read) = &original.read else { return };
        let tree = &read.tree;
        let within = |byte: u8| {
            let commands = tree.0.iter().filter(|c| c.byte == byte);
            commands.clone().any(|c| c.place.iter().any(|around| tree.0[around.0].byte == LOOP))
        };
        let unrolled = unroll(&original.bytes, tree);
        let (long, deep) = (unrolled.bytes.len() > RESULT_LENGTH, unrolled.depth > 64);
        let plain = tree.setpauses().is_empty();
        let written = result.is_some();
        let events = [
            written,
            written && tree.0.iter().all(|c| c.byte != LOOP),
            written && within(LOOP),
            written && within(reference::SIGNAL),
            written && within(SUSPEND),
            written && within(DELIVER),
            written && original.read_back != 0,
            plain && long && !deep,
            plain && deep && !long,
        ];
        (0..events.len()).for_each(|i| self.events[i] += events[i] as u64);
    }

    fn close(&mut self, name: &str) {
        let numbers: String = NUMBERS.iter().map(|n| format!("{:>8}", self.numbers[*n as usize])).collect();
        println!("{name:<16}{numbers}{:>8}", self.counts.close());
        self.numbers = [0; 256];
    }
}

/// Originals whose results have lengths and depths on both sides of the limits: loops around bodies of each length.
fn edges(tally: &mut Tally) {
    for loops in 0..=34 {
        let room = (RESULT_LENGTH - 2 * loops) / (loops + 1);
        for length in (2..=6).chain(room.saturating_sub(3)..=room + 3) {
            for before in ["", "04 00", "04 02 00", "08 00", "0B 01"] {
                let mut bytes = table::bytes(before);
                bytes.extend(vec![LOOP; loops]);
                bytes.extend(body(length));
                tally.compare(&bytes, 0, RESULT_LENGTH, None);
                // with a setpause 20 comes first
                let with_setpause = [&[0x04][..], &bytes, &[0x0A, 0x00]].concat();
                tally.compare(&with_setpause, 0, RESULT_LENGTH, None);
                tally.events[9] += matches!(expected(&bytes, 0, RESULT_LENGTH), (21, _)) as u64;
            }
        }
    }
}

/// A statement of so many bytes, at least two, that is not deep: nothings in sequence, 32 bytes side by side, and a pause.
fn body(length: usize) -> Vec<u8> {
    let mut bytes = Vec::new();
    while length - bytes.len() > 34 {
        bytes.push(0x04);
        bytes.extend([0x04, 0x00].repeat(15));
        bytes.push(0x00);
    }
    while length - bytes.len() > 3 {
        bytes.extend([0x04, 0x00]);
    }
    let last: &[u8] = if length - bytes.len() == 2 { &[0x01, 0x00] } else { &[0x09, 0x01, 0x00] };
    [&bytes, last].concat()
}

/// Accepted sequences, most of them without setpause, and damaged ones; each result is checked and run.
fn random_sequences(tally: &mut Tally, random: &mut Random, count: usize) {
    for _ in 0..count {
        let keeps_setpauses = random.chance(5);
        let original = runs::sequence_of(random, |random, style| {
            style.weights[0x0A] *= keeps_setpauses as usize;
            style.weights[LOOP as usize] += random.pick(&[0, 4, 16]);
        });
        let result = tally.compare(&original.bytes, original.read_back, RESULT_LENGTH, None);
        tally.count(&original, result.as_ref());
        if let Some(result) = result {
            tally.accepted(&original.bytes, original.read_back, &result);
            let result = Sequence::new(result, original.read_back);
            tally.runs(&original, &result, random);
            tally.ledgers(&original, &result, random);
        }
        let damaged = {
            let mut bytes = original.bytes;
            let at = random.below(bytes.len());
            bytes[at] = random.below(0x10) as u8;
            bytes
        };
        tally.compare(&damaged, original.read_back, RESULT_LENGTH, None);
    }
}

fn main() -> ExitCode {
    let seed = env::args().nth(1).map_or(20_251_117, |s| s.parse().expect("the seed is a number"));
    println!("seed {seed}");
    let numbers: String = NUMBERS.iter().map(|n| format!("{n:>8}")).collect();
    println!("{:<16}{numbers}  failed", "answers");
    let mut tally = Tally { counts: Counts::default(), numbers: [0; 256], events: [0; EVENTS.len()], fill: 1 };
    for (number, text) in table::lines(include_str!("../../unrolls.txt")) {
        let (original, result) = text.split_once('|').expect("a line has a bar");
        let (bytes, read_back) = table::program(original);
        let by_hand = Some((number, table::bytes(result)));
        if let Some(result) = tally.compare(&bytes, read_back, RESULT_LENGTH, by_hand) {
            tally.accepted(&bytes, read_back, &result);
        }
        for buffer_length in [0, 1, 1023, 1025, 2048] {
            tally.compare(&bytes, read_back, buffer_length, None);
        }
    }
    tally.close("by hand");
    edges(&mut tally);
    tally.close("edges");
    random_sequences(&mut tally, &mut Random(seed), 40_000);
    tally.close("random");
    for (name, count) in EVENTS.into_iter().zip(tally.events) {
        println!("{name:<40}{count:>10}");
        tally.counts.expect(count >= 100, || format!("{name} occurred only {count} times"));
    }
    tally.counts.finish()
}
