//! The host test of a replay (02, item 14): intake_replay of the archive against a model (model.rs) on recordings of
//! random machines, whole and damaged in every byte, by whole records, by their length and by a position come back to; and on
//! sequences that are turned down. An argument replaces the seed. The last line is 'N passed, M failed'.
//! Rows of docs/DEMANDS.md that it tests: I14.1 to I14.11.
mod archive;
mod model;

use common::counts::Counts;
use common::generate::{self, Random, Style};
use model::{Machine, INPUTS, RECORD_LENGTH};
use std::{env, process::ExitCode};
use tick::reference::Sequence;
use tick::runs;

/// The greatest number.
const GREATEST: usize = 22;

#[derive(Default)]
struct Tally {
    counts: Counts,
    numbers: [u64; GREATEST + 1],
    accepted: u64,
    first: u64,
    later: u64,
}

impl Tally {
    /// The archive gives what the model gives, which is told.
    fn compare(&mut self, sequence: &Sequence, recording: &[u8], what: &str) -> (u8, usize) {
        let (given, expected) = (archive::replay(sequence.program(), recording), model::replay(sequence, recording));
        let length = recording.len();
        self.counts.expect(given == expected, || format!("{what} of {}, {length} bytes: {given:?}", sequence.text()));
        self.numbers[expected.0 as usize] += 1;
        match expected {
            (0, 0) => self.accepted += 1,
            (0, 1) => self.first += 1,
            (0, _) => self.later += 1,
            _ => (),
        }
        expected
    }

    fn expect(&mut self, given: (u8, usize), expected: (u8, usize), what: &str, sequence: &Sequence) {
        self.counts.expect(given == expected, || format!("{what} of {}: {given:?}", sequence.text()));
    }
}

/// A recording of a fresh machine, and whether the machine is over then.
fn record(random: &mut Random, sequence: &Sequence, most: usize) -> (Vec<u8>, bool) {
    let inputs: Vec<u32> = (0..1 + random.below(most)).map(|_| runs::input(random)).collect();
    let mut machine = Machine::fresh(sequence);
    let recording = machine.recording(&inputs);
    (recording, machine.state[0] == 2)
}

/// Each byte of a record changed in turn: the record's place, unless only its inputs changed, which may make it another's.
fn bytes(tally: &mut Tally, random: &mut Random, sequence: &Sequence, recording: &[u8]) {
    let at = random.below(recording.len() / RECORD_LENGTH);
    for byte in 0..RECORD_LENGTH {
        let mut changed = recording.to_vec();
        changed[at * RECORD_LENGTH + byte] ^= 1 << random.below(8);
        let given = tally.compare(sequence, &changed, "a changed byte");
        if !INPUTS.contains(&byte) {
            tally.expect(given, (0, at + 1), "the place of a changed byte", sequence);
        }
    }
}

/// Records left out, repeated and exchanged; a number that begins at 2; and a record after the last one.
fn records(tally: &mut Tally, random: &mut Random, sequence: &Sequence, (recording, over): &(Vec<u8>, bool)) {
    let records: Vec<&[u8]> = recording.chunks(RECORD_LENGTH).collect();
    let (count, i, j) = (records.len(), random.below(records.len()), random.below(records.len()));
    tally.compare(sequence, &[&records[..i], &records[i + 1..]].concat().concat(), "a record left out");
    let twice = tally.compare(sequence, &[&records[..=i], &records[i..]].concat().concat(), "a record twice");
    tally.expect(twice, (0, i + 2), "the place of a repeated record", sequence);
    let mut exchanged = records.clone();
    exchanged.swap(i, j);
    let given = tally.compare(sequence, &exchanged.concat(), "records exchanged");
    tally.expect(given, (0, if i == j { 0 } else { i.min(j) + 1 }), "the place of exchanged records", sequence);
    let mut second = recording.clone();
    second[0] += 1;
    let given = tally.compare(sequence, &second, "numbers from 2");
    tally.expect(given, (0, 1), "the place of a number 2", sequence);
    if *over {
        let mut after = records[count - 1].to_vec();
        after[..4].copy_from_slice(&(count as u32 + 1).to_le_bytes());
        let given = tally.compare(sequence, &[&recording[..], &after].concat(), "a record after the end");
        tally.expect(given, (0, count + 1), "the place of a record after the end", sequence);
    }
}

/// Every length from none to two records: 22 unless it is a multiple.
fn lengths(tally: &mut Tally, sequence: &Sequence, recording: &[u8]) {
    for length in 0..=recording.len().min(2 * RECORD_LENGTH) {
        tally.compare(sequence, &recording[..length], "a length");
    }
}

/// A machine that comes back to where it was after some instants, its numbers going on: what a bay's restore records.
fn returned(tally: &mut Tally, random: &mut Random, sequence: &Sequence) -> bool {
    let inputs: Vec<u32> = (0..8).map(|_| runs::input(random)).collect();
    let mut machine = Machine::fresh(sequence);
    let mut recording = machine.recording(&inputs[..1 + random.below(3)]);
    let saved = machine.state.clone();
    if saved[0] != 1 {
        return false;
    }
    recording.extend(machine.recording(&inputs[4..6]));
    machine.state = saved;
    recording.extend(machine.recording(&inputs[6..]));
    tally.compare(sequence, &recording, "a position come back to") != (0, 0)
}

/// A recording with another sequence or another read-back set than its own.
fn others(tally: &mut Tally, random: &mut Random, sequence: &Sequence, recording: &[u8]) {
    let other = Sequence::new(sequence.bytes.clone(), sequence.read_back ^ 1 << random.below(32));
    tally.compare(&other, recording, "another read-back set");
    tally.compare(&runs::sequence(random), recording, "another sequence");
    let style = Style::any(random);
    let longest = random.pick(&[16, 64, 64, 256]);
    let length = random.below(longest);
    let made = generate::sequence(random, style, length);
    let damaged = Sequence::new(generate::damaged(random, &made), random.below(1 << 32) as u32 & 3);
    tally.compare(&damaged, recording, "a damaged sequence");
    tally.compare(&damaged, &recording[..recording.len() - 1], "a damaged sequence and a cut record");
}

/// 10,000 records, and a change in the first, in the middle and in the last.
fn long(tally: &mut Tally) {
    const RECORDS: usize = 10_000;
    let sequence = Sequence::new(vec![0x06, 0x04, 0x07, 0x00, 0x02, 0x01, 0x00, 0x01, 0x05], 0);
    let inputs: Vec<u32> = (0..RECORDS as u32).collect();
    let recording = Machine::fresh(&sequence).recording(&inputs);
    let given = tally.compare(&sequence, &recording, "10,000 records");
    tally.expect(given, (0, 0), "10,000 records", &sequence);
    for at in [0, RECORDS / 2, RECORDS - 1] {
        let mut changed = recording.clone();
        changed[at * RECORD_LENGTH + 8] ^= 2;
        let given = tally.compare(&sequence, &changed, "10,000 records, one changed");
        tally.expect(given, (0, at + 1), "10,000 records, one changed", &sequence);
    }
}

fn main() -> ExitCode {
    let seed = env::args().nth(1).map_or(20_261_117, |s| s.parse().expect("the seed is a number"));
    println!("seed {seed}");
    let (mut tally, mut random, mut returns) = (Tally::default(), Random(seed), 0);
    for _ in 0..20_000 {
        let sequence = runs::sequence(&mut random);
        let most = random.pick(&[1, 4, 12, 40]);
        let made = record(&mut random, &sequence, most);
        let given = tally.compare(&sequence, &made.0, "a recording");
        tally.expect(given, (0, 0), "a recording", &sequence);
        bytes(&mut tally, &mut random, &sequence, &made.0);
        records(&mut tally, &mut random, &sequence, &made);
        lengths(&mut tally, &sequence, &made.0);
        others(&mut tally, &mut random, &sequence, &made.0);
        returns += returned(&mut tally, &mut random, &sequence) as u64;
    }
    long(&mut tally);
    let Tally { mut counts, numbers, accepted, first, later } = tally;
    println!("{accepted} accepted, {first} that differ at 1, {later} later; {returns} that came back and differ");
    for number in (2..=10).chain([0, 22]) {
        counts.expect(numbers[number] > 5, || format!("number {number} only {} times", numbers[number]));
    }
    counts
        .expect(accepted > 20_000 && first > 20_000 && later > 20_000 && returns > 100, || "too few of a kind".into());
    counts.finish()
}
