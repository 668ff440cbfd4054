//! All statements of one to five commands over two signals, two labels, 63 and 64, and two exits, with every read-back set of them up
//! to four commands and with one in turn of five; such with litres, of two farms; and, for the two orders of the signal
//! rules, of one to seven commands over one signal and one exit.
use crate::archive::ANSWER_LENGTH;
use crate::reference::Sequence;
use crate::rewriting::Paper;
use crate::runs::record;
use crate::tally::Tally;
use common::reference::Labels;
use common::table::bytes;

/// The lowest label of a small statement: the others are in the other half of the set.
pub const FIRST_LABEL: u8 = 63;

/// What statements are made of: commands of no part, of one and of two.
struct Commands<'a> {
    leaves: &'a [&'a str],
    wraps: &'a [&'a str],
    joins: &'a [&'a str],
}

const OF_FIVE: Commands = Commands {
    leaves: &["00", "01 3F", "01 40", "02 00", "02 01", "03 01", "03 02", "0A 3F", "0A 40"],
    wraps: &["06", "08 00", "08 01", "09", "0B 00", "0B 01"],
    joins: &["04", "05", "07 00", "07 01"],
};

/// Emissions with 1 litre of farm 0 and 16,777,216 of farm 1.
const WITH_LITRES: Commands = Commands {
    leaves: &["00", "01 3F", "02 00", "03 01", "0C 00 00 00 80 3F", "0C 01 00 00 80 4B"],
    wraps: &["06", "08 00", "09", "0B 00"],
    joins: &["04", "05", "07 00"],
};

/// The pauses are numbered afterwards.
const OF_SEVEN: Commands = Commands {
    leaves: &["00", "01 FF", "02 00", "03 01"],
    wraps: &["06", "08 00", "09", "0B 00"],
    joins: &["04", "05", "07 00"],
};

/// All statements of up to `most` commands, by their count.
fn statements(most: usize, commands: &Commands) -> Vec<Vec<Vec<u8>>> {
    let [leaves, wraps, joins] = [commands.leaves, commands.wraps, commands.joins]
        .map(|texts| texts.iter().map(|text| bytes(text)).collect::<Vec<_>>());
    let mut all = vec![vec![], leaves];
    for count in 2..=most {
        let mut larger: Vec<Vec<u8>> = Vec::new();
        for p in &all[count - 1] {
            larger.extend(wraps.iter().map(|wrap| [&wrap[..], p].concat()));
        }
        for first in 1..count - 1 {
            for (p, q) in all[first].iter().flat_map(|p| all[count - 1 - first].iter().map(move |q| (p, q))) {
                larger.extend(joins.iter().map(|join| [&join[..], p, q].concat()));
            }
        }
        all.push(larger);
    }
    all
}

/// The statements of up to seven commands with a signal among them, those of eight with a signal around, and those of up
/// to six whose signal is read back; each pause has a label of its own.
pub fn with_signals() -> impl Iterator<Item = (Vec<u8>, u32)> {
    let all = statements(7, &OF_SEVEN);
    let around: Vec<Vec<u8>> = all[7].iter().map(|body| [&[0x08, 0x00], &body[..]].concat()).collect();
    let read_back: Vec<Vec<u8>> = all[..7].iter().flatten().cloned().collect();
    let inside = all.into_iter().flatten().filter(|bytes| bytes.contains(&0x08));
    let declared = inside.chain(around).map(|bytes| (bytes, 0));
    declared.chain(read_back.into_iter().map(|bytes| (bytes, 1))).map(|(mut bytes, set)| {
        let pauses = bytes.iter_mut().filter(|byte| **byte == 0xFF);
        pauses.zip(FIRST_LABEL..).for_each(|(label, number)| *label = number);
        (bytes, set)
    })
}

/// The statements of up to four commands with each read-back set of the two signals, and those of five with one in turn.
fn with_sets(mut run: impl FnMut(&Sequence)) {
    for (commands, statements) in statements(5, &OF_FIVE).into_iter().enumerate() {
        for (turn, bytes) in statements.into_iter().enumerate() {
            let sets = (1..4).filter(|set| commands < 5 || turn % 3 + 1 == *set as usize);
            sets.for_each(|set| run(&Sequence::new(bytes.clone(), set)));
        }
    }
}

/// Every statement from every record of phase 0 to 3 and labels 63 to 65, with every input of two bits.
pub fn every_state(tally: &mut Tally) {
    for bytes in statements(5, &OF_FIVE).into_iter().flatten() {
        let sequence = Sequence::new(bytes, 0);
        for (phase, labels) in (0..4).flat_map(|phase| (0..8).map(move |labels| (phase, labels))) {
            let state = record(phase, labels << FIRST_LABEL);
            // a tick turned down does not depend on the input
            if tally.compare(&sequence, &state, 0, ANSWER_LENGTH, None).0 == 0 {
                (1..4).for_each(|input| drop(tally.compare(&sequence, &state, input, ANSWER_LENGTH, None)));
            }
            if sequence.read.is_err() {
                break; // nor a bad sequence on the record
            }
        }
    }
}

/// Every accepted statement with a read-back set, fresh and from every valid label set, with every input of two bits.
pub fn every_set(tally: &mut Tally) {
    with_sets(|sequence| {
        let Ok(read) = &sequence.read else { return };
        let sets = (0..4).map(|labels: Labels| labels << FIRST_LABEL);
        for labels in sets.filter(|labels| *labels == 0 || read.tree.valid(*labels)) {
            let state = record((labels != 0) as u8, labels);
            inputs(sequence.read_back)
                .for_each(|input| drop(tally.compare(sequence, &state, input, ANSWER_LENGTH, None)));
        }
    });
}

/// Every statement without setpause against the paper, over every list of three inputs of two bits.
pub fn every_run(tally: &mut Tally) {
    for bytes in statements(5, &OF_FIVE).into_iter().flatten() {
        let sequence = Sequence::new(bytes, 0);
        if let Some(paper) = sequence.paper() {
            continue_run(tally, &sequence, &paper, &record(0, 0), 3);
        }
    }
}

/// The same with a read-back set, one through all the list.
pub fn every_run_with_sets(tally: &mut Tally) {
    with_sets(|sequence| {
        if let Some(paper) = sequence.paper() {
            continue_run(tally, sequence, &paper, &record(0, 0), 3);
        }
    });
}

/// Every statement with litres against the paper, over every list of three inputs of two bits, with each read-back set.
pub fn every_delivery(tally: &mut Tally) {
    let statements = statements(5, &WITH_LITRES).into_iter().flatten().filter(|bytes| bytes.contains(&0x0C));
    for (bytes, set) in statements.flat_map(|bytes| (0..4).map(move |set| (bytes.clone(), set))) {
        let sequence = Sequence::new(bytes, set);
        if let Some(paper) = sequence.paper() {
            continue_run(tally, &sequence, &paper, &record(0, 0), 3);
        }
    }
}

/// The inputs of two bits without those of a read-back set, which each comparison turns by itself.
fn inputs(set: u32) -> impl Iterator<Item = u32> {
    (0..4).filter(move |input| input & set == 0)
}

fn continue_run(tally: &mut Tally, sequence: &Sequence, paper: &Paper, state: &[u8], ticks: usize) {
    for input in inputs(sequence.read_back) {
        let mut paper = paper.clone();
        let (_, after) = tally.compare(sequence, state, input, ANSWER_LENGTH, Some(&mut paper));
        if ticks > 1 && after[0] == 1 {
            continue_run(tally, sequence, &paper, &after, ticks - 1);
        }
    }
}
