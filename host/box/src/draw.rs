//! Random calls to a box: mostly such as a host makes, sequences whose ceilings meet or pass what is left, and mistakes.
use crate::archive::Call;
use crate::ledgers::READING_LENGTH;
use crate::model::{Bay, Model, BAYS, SHARED, WAITING};
use crate::previews::{PREVIEW_LENGTH, UNKNOWN};
use crate::records::{PANEL_LENGTH, RECORD_LENGTH};
use common::generate::{self, Random, Style};
use common::table;
use std::sync::OnceLock;
use tick::archive::ANSWER_LENGTH;
use tick::runs;

/// A call with its bay, and the length of its box if that is another.
#[derive(Clone)]
pub struct Request {
    pub bay: u32,
    pub length: Option<usize>,
    pub call: Call,
}

/// A statement of so many commands, one at least, with a pause that it reaches first and in which it waits.
fn commands(count: u64, label: u8, bytes: &mut Vec<u8>) {
    match count {
        1 => bytes.extend([0x01, label]),
        2 => bytes.extend([0x09, 0x01, label]),
        _ => {
            bytes.extend([0x04, 0x01, label]);
            plain(count - 2, bytes);
        }
    }
}

/// A balanced statement of so many commands that waits for nothing.
fn plain(count: u64, bytes: &mut Vec<u8>) {
    match count {
        1 => bytes.push(0x00),
        even if even % 2 == 0 => {
            bytes.push(0x09);
            plain(count - 1, bytes);
        }
        _ => {
            let first = (count - 1) / 2;
            bytes.push(0x04);
            plain(first, bytes);
            plain(count - 1 - first, bytes);
        }
    }
}

/// An accepted sequence with a read-back set and this ceiling, if one of few loops is found: the signals around it are
/// declared or read back.
pub fn of_ceiling(random: &mut Random, ceiling: u64) -> Option<(Vec<u8>, u32)> {
    let fits = |&(loops, signals): &(u64, u32)| {
        let factor = (1 + loops) << signals;
        let count = ceiling / factor;
        ceiling == count * factor && count > loops + signals as u64 && count < 900
    };
    let shapes: Vec<(u64, u32)> = (0..40).flat_map(|l| (0..=6).map(move |s| (l, s))).filter(fits).collect();
    if shapes.is_empty() {
        return None;
    }
    let (loops, signals) = random.pick(&shapes);
    let declared = random.below(signals as usize + 1) as u32;
    let mut bytes: Vec<u8> = (0..declared as u8).flat_map(|signal| [0x08, signal]).collect();
    bytes.extend((0..loops).map(|_| 0x06));
    let count = ceiling / ((1 + loops) << signals) - loops - signals as u64;
    commands(count, random.below(128) as u8, &mut bytes);
    Some((bytes, generate::set_of(random, (signals - declared) as usize)))
}

/// A sequence with its read-back set that the check may turn down: a line of host/examples.txt, or a damaged one.
pub fn doubtful(random: &mut Random, longest: usize) -> (Vec<u8>, u32) {
    static EXAMPLES: OnceLock<Vec<(Vec<u8>, u32)>> = OnceLock::new();
    let read = || table::lines(include_str!("../../examples.txt")).map(|(_, text)| table::program(text)).collect();
    let examples = EXAMPLES.get_or_init(read);
    if random.chance(40) {
        return examples[random.below(examples.len())].clone();
    }
    let (style, length) = (Style::any(random), random.below(longest));
    let sequence = generate::sequence(random, style, length);
    let bytes = generate::damaged(random, &sequence);
    let few = generate::read_back(random, &bytes, 8);
    let any = random.below(1 << 32) as u32;
    (bytes, random.pick(&[0, 0, few, any]))
}

/// A sequence that delivers again and again, mostly of few farms, with signals around some of it.
fn delivering(random: &mut Random) -> (Vec<u8>, u32) {
    let sequence = runs::sequence_of(random, |random, style| {
        style.weights = std::array::from_fn(|byte| match byte {
            0x0C => 16,
            0x01 | 0x04 | 0x05 => 4,
            0x00 | 0x02 | 0x07 | 0x08 => random.pick(&[0, 1, 2]),
            _ => random.pick(&[0, 0, 1]),
        });
        style.endless = true;
        style.framed = 95;
    });
    (sequence.bytes, sequence.read_back)
}

/// A sequence that delivers of some farms in each instant, by an input either much or little, so that a tick may find room
/// where the one before it found none.
fn choosing(random: &mut Random) -> Vec<u8> {
    let farms = 1 + random.below(3);
    let mut bytes = vec![0x06, 0x04];
    bytes.extend((1..farms).map(|_| random.pick(&[0x04, 0x05])));
    for _ in 0..farms {
        let farm = random.below(32) as u8;
        let little = random.pick(&[0.0f32, 1.0, 2.0, 1000.0]).to_bits();
        bytes.extend([0x07, random.below(3) as u8]);
        for bits in [generate::litres(random), little] {
            bytes.extend([0x0C, farm]);
            bytes.extend(bits.to_le_bytes());
        }
    }
    bytes.extend([0x01, random.below(128) as u8]);
    bytes
}

/// A sequence with its read-back set for an admission where so much is left of the shared ceiling.
fn admitted(random: &mut Random, left: u64) -> (Vec<u8>, u32) {
    match random.below(20) {
        0..=2 => {
            let longest = random.pick(&[16, 64, 256, 1031]);
            doubtful(random, longest)
        }
        3..=5 => {
            let over = random.pick(&[0, 0, 1, 2, 64]);
            let dear = random.below(SHARED as usize) as u64;
            let ceiling = random.pick(&[left, left + over, (left + 1).saturating_sub(over), left / 2, left / 4, dear]);
            of_ceiling(random, ceiling).unwrap_or((vec![0x01, 0x00], 0))
        }
        6..=9 => delivering(random),
        10..=12 => (choosing(random), 0),
        _ => {
            let sequence = runs::sequence(random);
            (sequence.bytes, sequence.read_back)
        }
    }
}

/// Numbers above 7, and such as a narrow counter would take for one of a bay.
const NO_BAYS: [u32; 9] = [8, 9, 255, 256, 257, 65_536, 1 << 31, (1 << 31) + 7, u32::MAX];

fn over(bay: &Bay) -> bool {
    bay.state[0] == 2
}

/// A name: one of those that the bay knows in so many of a hundred, one that differs from it in a byte, or any.
fn name(random: &mut Random, bay: Option<&Bay>, share: usize) -> u32 {
    let known: Vec<u32> = bay.iter().flat_map(|bay| bay.positions.keys().copied()).collect();
    if !known.is_empty() && random.chance(share) {
        return random.pick(&known);
    }
    let (few, any) = (random.below(20) as u32, random.below(1 << 32) as u32);
    let near = known.first().copied().unwrap_or(1) ^ (1 + random.below(255) as u32) << (8 * random.below(4));
    random.pick(&[few, few, near, any, 0, u32::MAX])
}

/// Gives a call on a position a name that suits its bay, and a preview mostly unknown inputs that its bay's sequence names.
pub fn suit(random: &mut Random, model: &Model, request: &mut Request) {
    let bay = model.bays.get(request.bay as usize).and_then(Option::as_ref);
    match &mut request.call {
        Call::Save { name: own } => *own = name(random, bay, 15),
        Call::Restore { name: own } | Call::Forget { name: own } => *own = name(random, bay, 85),
        Call::Preview { unknown, .. } if random.chance(60) => {
            let sequence = bay.map_or(&[][..], |bay| &bay.sequence);
            *unknown = generate::read_back(random, sequence, UNKNOWN);
        }
        _ => {}
    }
}

/// Mostly a bay that suits the call: an empty one to admit to, one that is over to release, one that is not to tick, one
/// that waits to save, one with positions to come back or to forget, a filled one to read;
/// to preview one that is not over.
fn bay(random: &mut Random, model: &Model, call: &Call) -> u32 {
    let suits = |bay: &Option<Bay>| match call {
        Call::Admit { .. } => bay.is_none(),
        Call::Release => bay.as_ref().is_some_and(over),
        Call::Tick { .. } => bay.as_ref().is_some_and(|bay| !over(bay)),
        Call::Save { .. } => bay.as_ref().is_some_and(|bay| bay.state[0] == WAITING),
        Call::Restore { .. } | Call::Forget { .. } => bay.as_ref().is_some_and(|bay| !bay.positions.is_empty()),
        Call::Service { .. } | Call::Panel { .. } => bay.is_some(),
        Call::Preview { .. } => bay.as_ref().is_some_and(|bay| !over(bay)),
        Call::Ledger { .. } | Call::NewYear => true,
    };
    let such: Vec<u32> = (0..BAYS as u32).filter(|&bay| suits(&model.bays[bay as usize])).collect();
    if such.is_empty() || random.chance(15) {
        return random.below(BAYS) as u32;
    }
    let most = such.iter().max_by_key(|&&bay| model.bays[bay as usize].as_ref().map_or(0, |bay| bay.positions.len()));
    let any = random.pick(&such);
    match call {
        Call::Save { .. } if random.chance(70) => *most.unwrap_or(&any),
        _ => any,
    }
}

/// The length of a buffer, sometimes another.
fn length(random: &mut Random, right: usize) -> usize {
    match random.chance(98) {
        true => right,
        false => {
            let other = random.pick(&[ANSWER_LENGTH, PANEL_LENGTH, RECORD_LENGTH, PREVIEW_LENGTH, READING_LENGTH]);
            random.pick(&[0, 1, right - 1, right + 1, other, other, right + 256, 1024])
        }
    }
}

/// A reader with the last record, one that differs from it in a bit, or any bytes.
fn reading(random: &mut Random, model: &Model) -> Call {
    let mut record = model.last.clone();
    record.resize(RECORD_LENGTH, 0);
    match random.below(3) {
        0 => record.fill_with(|| random.below(256) as u8),
        1 => record[random.below(RECORD_LENGTH)] ^= 1 << random.below(8),
        _ => {}
    }
    record.resize(length(random, RECORD_LENGTH), 0);
    match random.chance(30) {
        true => Call::Service { record, view_length: length(random, RECORD_LENGTH) },
        false => Call::Panel { record, view_length: length(random, PANEL_LENGTH) },
    }
}

/// A preview, mostly with few unknown inputs.
fn previewing(random: &mut Random) -> Call {
    let count = random.pick(&[0, 1, 1, 2, 2, 3, UNKNOWN - 1, UNKNOWN, UNKNOWN + 1, 32]);
    let unknown = generate::set_of(random, count);
    Call::Preview { input: runs::input(random), unknown, preview_length: length(random, PREVIEW_LENGTH) }
}

/// A call as the model's bays suggest it; `positions` is how many in a hundred are on positions, and `ticks` how many of
/// the others, but for some that read a record, some previews and some on a ledger, are ticks.
pub fn request(random: &mut Random, model: &Model, positions: usize, ticks: usize) -> Request {
    let idle = model.bays.iter().flatten().all(over);
    let kind = if idle && random.chance(80) { 99 } else { random.below(100) };
    let call = if random.chance(positions) {
        let (save, restore, forget) = (Call::Save { name: 0 }, Call::Restore { name: 0 }, Call::Forget { name: 0 });
        match random.below(20) {
            0..=11 => save,
            12..=16 => restore,
            _ => forget,
        }
    } else if random.chance(15) {
        reading(random, model)
    } else if random.chance(15) {
        previewing(random)
    } else if random.chance(8) {
        match random.chance(80) {
            true => Call::Ledger { totals_length: length(random, READING_LENGTH) },
            false => Call::NewYear,
        }
    } else if kind < ticks {
        let (answer_length, record_length) = (length(random, ANSWER_LENGTH), length(random, RECORD_LENGTH));
        Call::Tick { input: runs::input(random), answer_length, record_length }
    } else if kind < ticks + (100 - ticks) / 3 {
        Call::Release
    } else {
        let (sequence, read_back) = admitted(random, SHARED - model.taken());
        let any = random.below(1 << 32) as u32;
        let service_only = random.pick(&[0, any & 0xFF, any, any, u32::MAX]);
        Call::Admit { sequence, read_back, service_only }
    };
    let bay = if random.chance(3) { random.pick(&NO_BAYS) } else { bay(random, model, &call) };
    let length = random.chance(3).then(|| {
        let right = model.length;
        random.pick(&[0, 1, right / BAYS, right - 1, right + 1, right - 256, right + 256, 2 * right, right + 65_536])
    });
    let mut request = Request { bay, length, call };
    suit(random, model, &mut request);
    request
}
