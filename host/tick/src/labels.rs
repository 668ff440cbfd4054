//! Labels over all their range (02, item 7): every pair of them, and statements with a pause for each. A set of one word, or
//! labels that are told apart by some of their bits alone, would take one label for another.
use crate::archive::ANSWER_LENGTH;
use crate::reference::Sequence;
use crate::runs::{input, record, state};
use crate::tally::Tally;
use common::generate::Random;
use common::reference::{Labels, LABELS};

pub fn labels(tally: &mut Tally, random: &mut Random) {
    for (k, l) in (0..LABELS as u8).flat_map(|k| (0..LABELS as u8).map(move |l| (k, l))) {
        one(tally, k, l);
        if k != l {
            two(tally, k, l);
            jump(tally, k, l);
        }
    }
    let joins: [&[u8]; 5] = [&[0x05], &[0x04], &[0x07], &[0x04, 0x05], &[0x04, 0x05, 0x07]];
    (0..100).for_each(|turn| each(tally, random, joins[turn % joins.len()]));
}

/// A pause of one label from the record of another, or of the same.
fn one(tally: &mut Tally, k: u8, l: u8) {
    let sequence = Sequence::new(vec![0x01, k], 0);
    (0..3).for_each(|phase| drop(tally.compare(&sequence, &record(phase, 1 << l), 0, ANSWER_LENGTH, None)));
}

/// Two pauses, exclusive or compatible: fresh, and from the records of one of them and of both.
fn two(tally: &mut Tally, k: u8, l: u8) {
    for join in [0x04, 0x05] {
        let sequence = Sequence::new(vec![join, 0x01, k, 0x01, l], 0);
        run(tally, &sequence, 4, || 0);
        let (k, l): (Labels, Labels) = (1 << k, 1 << l);
        for labels in [k, l, k | l] {
            tally.compare(&sequence, &record(1, labels), 0, ANSWER_LENGTH, None);
        }
    }
}

/// pause k; setpause l; emit 0; pause l.
fn jump(tally: &mut Tally, k: u8, l: u8) {
    let sequence = Sequence::new(vec![0x04, 0x01, k, 0x04, 0x0A, l, 0x04, 0x02, 0x00, 0x01, l], 0);
    run(tally, &sequence, 4, || 0);
}

/// Ticks from a cleared record on, up to the first that is turned down.
fn run(tally: &mut Tally, sequence: &Sequence, ticks: usize, mut input: impl FnMut() -> u32) {
    let (mut state, mut paper) = (record(0, 0), sequence.paper());
    for _ in 0..ticks {
        let (number, after) = tally.compare(sequence, &state, input(), ANSWER_LENGTH, paper.as_mut());
        if number != 0 {
            break;
        }
        state = after;
    }
}

/// A pause for each label, in a drawn order, under these commands with two parts, now and then in a loop or a suspend: a run
/// that is longer than all of them, and single ticks from records that are valid or nearly so.
fn each(tally: &mut Tally, random: &mut Random, joins: &[u8]) {
    let mut order: Vec<u8> = (0..LABELS as u8).collect();
    (0..LABELS).for_each(|i| order.swap(i, random.below(i + 1)));
    let around: &[u8] = random.pick(&[&[], &[], &[0x06], &[0x0B, 0x00]]);
    let sequence = Sequence::new([around, &tree(random, joins, &order)].concat(), 0);
    run(tally, &sequence, LABELS + 4, || input(random));
    for _ in 0..40 {
        let (state, input) = (state(random, &sequence), input(random));
        tally.compare(&sequence, &state, input, ANSWER_LENGTH, None);
    }
}

/// A balanced tree of these commands.
fn tree(random: &mut Random, joins: &[u8], labels: &[u8]) -> Vec<u8> {
    if let [label] = labels {
        return vec![0x01, *label];
    }
    let (first, second) = labels.split_at(labels.len() / 2);
    let join = random.pick(joins);
    let operand: &[u8] = if join == 0x07 { &[0x00] } else { &[] };
    [&[join], operand, &tree(random, joins, first), &tree(random, joins, second)].concat()
}
