//! Random runs of many instants, each with one read-back set, and single ticks from random state records.
use crate::archive::ANSWER_LENGTH;
use crate::reference::Sequence;
use crate::tally::Tally;
use common::generate::{self, Random, Style, COMMANDS};
use common::reference::{self, Labels, LABELS, STATE_LENGTH};

/// Few names, so that emissions meet tests, and loops that mostly wait.
fn style(random: &mut Random) -> Style {
    let mut weights = [0; COMMANDS];
    weights.fill_with(|| random.pick(&[0, 1, 2, 4, 8]));
    weights[0x0A] *= random.below(2);
    Style {
        weights,
        names: random.pick(&[1, 2, 3, 8, 32]),
        exits: random.pick(&[1, 2, 3, 15]),
        framed: random.pick(&[40, 90, 95, 100]),
        endless: random.chance(60),
        small: random.below(4),
        loose: random.chance(30),
        labels: random.pick(&[2, 16, LABELS, LABELS]),
        levels: 64,
        signals: random.pick(&[1, 2, 3, 6]),
        read_back: 0,
    }
}

/// The set without its lowest signals, so that with it a sequence of such a nesting is accepted.
fn fitting(mut set: u32, nesting: usize) -> u32 {
    while set.count_ones() as usize + nesting > 6 {
        set &= set - 1;
    }
    set
}

/// An accepted sequence; most are short. Half of them have no read-back set, a quarter one that their tests and emissions
/// go by, a quarter one of names that they use, declared ones too.
pub fn sequence(random: &mut Random) -> Sequence {
    sequence_of(random, |_, _| {})
}

/// Such a sequence, after its style was changed.
pub fn sequence_of(random: &mut Random, change: impl Fn(&mut Random, &mut Style)) -> Sequence {
    loop {
        let longest = random.pick(&[12, 24, 24, 48, 48, 48, 96, 96, 200]);
        let longest = if random.chance(1) { 1024 } else { longest };
        let length = 1 + random.below(longest);
        let (mut style, kind, most) = (style(random), random.below(4), random.pick(&[1, 1, 2, 3, 6]));
        change(random, &mut style);
        if kind == 0 {
            style.read_back = (0..most).fold(0, |set, _| set | 1 << random.below(style.names));
        }
        let set = style.read_back;
        let bytes = generate::sequence(random, style, length).bytes;
        if let Ok(tree) = reference::check(&bytes, 0) {
            let set = if kind == 1 { generate::read_back(random, &bytes, most) } else { set };
            return Sequence::new(bytes, fitting(set, tree.nesting()));
        }
    }
}

pub fn input(random: &mut Random) -> u32 {
    let any = random.below(1 << 32) as u32;
    random.pick(&[0, u32::MAX, any & 7, any, any])
}

/// Mostly right.
fn answer_length(random: &mut Random) -> usize {
    if random.chance(97) {
        ANSWER_LENGTH
    } else {
        random.below(20)
    }
}

/// `count` runs from a cleared record, each two ticks longer than its machine or up to 40 ticks long.
pub fn runs(tally: &mut Tally, random: &mut Random, count: usize) {
    let mut instants = 0;
    let mut endless = 0;
    for _ in 0..count {
        let sequence = sequence(random);
        let mut paper = sequence.paper();
        let mut state = record(0, 0);
        let mut after_over = 0;
        let ticks = random.pick(&[4, 8, 16, 40]);
        for _ in 0..ticks {
            let (input, length) = (input(random), answer_length(random));
            let (number, after) = tally.compare(&sequence, &state, input, length, paper.as_mut());
            instants += (number == 0) as u64;
            state = after;
            after_over += (state[0] == 2) as u64;
            if after_over > 2 {
                break;
            }
        }
        endless += (state[0] == 1) as u64;
    }
    println!("{count} runs, {instants} instants, {endless} still wait");
    tally.counts.expect(instants > 3 * count as u64 && endless > count as u64 / 10, || "the runs are too short".into());
}

/// A valid label set, grown from the pauses in random order.
pub fn valid_set(random: &mut Random, sequence: &Sequence) -> Labels {
    let Ok(read) = &sequence.read else { return 0 };
    let (tree, pauses) = (&read.tree, read.tree.pauses());
    let most = random.pick(&[1, 2, LABELS as u32]);
    let mut set: Labels = 0;
    for _ in 0..2 * pauses.len() {
        let larger = set | 1 << random.pick(&pauses).operand;
        if larger.count_ones() <= most && tree.valid(larger) {
            set = larger;
        }
    }
    set
}

pub fn record(phase: u8, labels: Labels) -> Vec<u8> {
    [&[phase][..], &labels.to_le_bytes()].concat()
}

/// A record that is valid, nearly so, or any bytes.
pub fn state(random: &mut Random, sequence: &Sequence) -> Vec<u8> {
    let set = valid_set(random, sequence);
    let label = 1 << random.below(LABELS);
    match random.below(12) {
        0 => record(0, 0),
        1 => record(2, 0),
        2 => record(random.pick(&[0, 2]), set),
        3 => record(3 + random.below(253) as u8, random.pick(&[0, set])),
        4 => record(1, set | label),
        5 => record(1, set ^ label),
        6 => record(1, set | valid_set(random, sequence)),
        7 => (0..STATE_LENGTH).map(|_| random.below(256) as u8).collect(),
        _ => record(1, set),
    }
}

/// Ticks of accepted sequences from random records, reachable or not.
pub fn states(tally: &mut Tally, random: &mut Random, count: usize) {
    for _ in 0..count {
        let sequence = sequence(random);
        for _ in 0..4 {
            let state = state(random, &sequence);
            let input = input(random);
            tally.compare(&sequence, &state, input, ANSWER_LENGTH, None);
        }
    }
}

/// Ticks of damaged sequences, with records and buffers of any length, and any read-back sets.
pub fn damaged(tally: &mut Tally, random: &mut Random, count: usize) {
    for _ in 0..count {
        let style = Style::any(random);
        let longest = random.pick(&[16, 64, 256, 1031]);
        let length = random.below(longest);
        let sequence = generate::sequence(random, style, length);
        let bytes = generate::damaged(random, &sequence);
        let (any, few) = (random.below(1 << 32) as u32, generate::read_back(random, &bytes, 8));
        let read_back = random.pick(&[0, 0, 0, 0, few, few, any, u32::MAX]);
        let sequence = Sequence::new(bytes, read_back);
        let mut state = state(random, &sequence);
        if random.chance(5) {
            state.resize(random.below(2 * STATE_LENGTH), 0);
        }
        let (input, length) = (input(random), answer_length(random));
        tally.compare(&sequence, &state, input, length, None);
    }
}
