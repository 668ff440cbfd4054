//! Boxes that no call has written: every call returns, a refusal changes nothing, no call leaves its bay's stretch, a tick
//! is intake_tick on what the bay holds, and a preview is one of those for each filling. A farm's total that no call writes
//! counts as 0, and its bytes stay until the farm delivers. Positions that calls could have left are kept as by name; of
//! other bytes in their place a name that is there with phase 1 is known, and a call writes what is its own to write.
use crate::archive::{Archive, Call, Given, Written};
use crate::draw::{doubtful, request};
use crate::layout::{
    self, entries, held, put, put_changed, put_entries, put_length, put_number, put_positions, put_sequence, put_state,
    table, totals, Held, LEDGER, STRETCH,
};
use crate::ledgers::{added, close, reading, READING_LENGTH};
use crate::lists::{nothing, Run};
use crate::memory::Memory;
use crate::model::{Bay, BAYS, POSITIONS, SHARED, WAITING};
use crate::previews::{preview, PREVIEW_LENGTH};
use crate::records::{panel, record, PANEL_LENGTH, RECORD_LENGTH};
use crate::tally::Tally;
use common::generate::Random;
use common::reference::STATE_LENGTH;
use tick::archive::{self, ANSWER_LENGTH};
use tick::reference::Sequence;
use tick::rewriting::Litres;
use tick::runs;

/// Up to 16 positions: state records of the sequence, or of any labels; some are in another phase, or have one name.
fn positions(random: &mut Random, stretch: &mut [u8], sequence: &Sequence) {
    let (full, damaged) = (random.pick(&[0, 30, 100]), random.chance(30));
    let all: Vec<Option<(u32, Vec<u8>)>> = (0..POSITIONS as u32)
        .map(|at| {
            let mut state = runs::state(random, sequence);
            state.resize(STATE_LENGTH, random.below(256) as u8);
            let other = damaged && random.chance(20);
            state[0] = if other { random.below(4) as u8 } else { WAITING };
            let name = if damaged && random.chance(30) { random.below(4) as u32 } else { at };
            random.chance(full).then_some((name, state))
        })
        .collect();
    put_entries(stretch, all.into_iter());
}

/// A stretch that holds a sequence, accepted or nearly so, with any state record and any ceiling.
fn invented(random: &mut Random, stretch: &mut [u8]) {
    let sequence = runs::sequence(random);
    let mut state = runs::state(random, &sequence);
    state.resize(STATE_LENGTH, 0);
    let service_only = random.below(1 << 32) as u32;
    if let Ok(mut bay) = Bay::new(&sequence.bytes, sequence.read_back, service_only) {
        bay.number = random.pick(&[0, u32::MAX - 1, u32::MAX, service_only]);
        put(stretch, Some(&bay));
        put_state(stretch, &state);
        positions(random, stretch, &sequence);
    }
    if random.chance(50) {
        let (mut bytes, read_back) = doubtful(random, 60);
        bytes.truncate(1024);
        put_sequence(stretch, &bytes, read_back);
    }
}

/// Bytes of a box that no call has written.
fn foreign(random: &mut Random, real: &[u8]) -> Vec<u8> {
    let mut bytes = real.to_vec();
    match random.below(4) {
        0 => bytes.fill_with(|| random.below(256) as u8),
        1 => (0..1 + random.below(40)).for_each(|_| bytes[random.below(real.len())] ^= 1 << random.below(8)),
        _ => {
            for bay in 0..BAYS {
                let stretch = &mut bytes[layout::stretch(bay)];
                if random.chance(30) {
                    stretch.fill_with(|| random.below(256) as u8);
                }
                match random.below(6) {
                    0 => put_length(stretch, 0),
                    1 => put_length(stretch, random.pick(&[1024, 1025, STRETCH as u16, 32_768, 65_535])),
                    _ => invented(random, stretch),
                }
            }
        }
    }
    bytes
}

/// Whether a name is there, in use.
fn known(stretch: &[u8], name: u32) -> bool {
    entries(stretch).any(|(own, state)| own == name && state[0] == WAITING)
}

/// Lets the positions be what the call has made of them, if it has changed one entry at most.
fn take_table(stretch: &mut [u8], given: &[u8]) {
    if entries(stretch).zip(entries(given)).filter(|(one, two)| one != two).count() <= 1 {
        stretch[table()].copy_from_slice(&given[table()]);
    }
}

fn saved(stretch: &mut [u8], given: &[u8], name: u32, state: &[u8]) -> Result<(), u8> {
    match layout::positions(stretch) {
        Some(mut positions) => {
            if !positions.contains_key(&name) && positions.len() == POSITIONS {
                return Err(16);
            }
            positions.insert(name, state.to_vec());
            put_positions(stretch, &positions);
            layout::arrange(stretch, given);
        }
        None if entries(given).any(|(own, kept)| own == name && kept == state) => take_table(stretch, given),
        None if known(stretch, name) => {} // and it is not kept
        None => return Err(16),
    }
    Ok(())
}

fn restored(stretch: &mut [u8], given: &[u8], name: u32) -> Result<(), u8> {
    let given = held(given).state;
    let such: Vec<Vec<u8>> = entries(stretch)
        .filter(|(own, state)| *own == name && state[0] == WAITING)
        .map(|(_, state)| state.to_vec())
        .collect();
    let state = such.iter().find(|state| *state == given).or(such.first()).ok_or(15)?;
    put_state(stretch, state);
    Ok(())
}

fn forgotten(stretch: &mut [u8], given: &[u8], name: u32) -> Result<(), u8> {
    if !known(stretch, name) {
        return Err(15);
    }
    match layout::positions(stretch) {
        Some(mut positions) => {
            positions.remove(&name);
            put_positions(stretch, &positions);
            layout::arrange(stretch, given);
        }
        None => take_table(stretch, given),
    }
    Ok(())
}

/// What the reference delivers in an instant of what a bay holds.
fn litres(here: &Held, input: u32) -> Litres {
    let bay = here.sequence.and_then(|sequence| Bay::new(sequence, here.read_back, 0).ok());
    bay.map_or(Litres::new(), |mut bay| {
        bay.state = here.state.to_vec();
        bay.litres(input)
    })
}

/// The answer and the next state of intake_tick on copies of what a bay holds, or its number.
fn instant(here: &Held, input: u32) -> Result<[Vec<u8>; 2], u8> {
    let lent = archive::Call { state: here.state, input, answer_length: ANSWER_LENGTH, fill: 0 };
    let outcome = archive::tick((here.sequence.ok_or(2)?, here.read_back), lent);
    match outcome.number {
        0 => Ok([outcome.answer, outcome.state].map(|bytes| bytes.expect("guards"))),
        number => Err(number),
    }
}

/// The number and the answer of a call to these bytes, and what becomes of them, which are `given` after the call; an
/// admission's part of the shared ceiling is not looked at.
fn expected(bytes: &[u8], given: &[u8], bay: u32, call: &Call) -> (Result<Written, u8>, Vec<u8>) {
    let mut after = bytes.to_vec();
    if bay as usize >= BAYS {
        return (Err(13), after);
    }
    let stretch = &mut after[layout::stretch(bay as usize)];
    let (here, given) = (held(&bytes[layout::stretch(bay as usize)]), &given[layout::stretch(bay as usize)]);
    let empty = here.length == 0;
    let given = match call {
        Call::Ledger { totals_length } => match *totals_length {
            READING_LENGTH => Ok([reading(&totals(stretch)), vec![]]),
            _ => Err(1),
        },
        Call::NewYear => {
            stretch[LEDGER..].fill(0);
            Ok(Written::default())
        }
        Call::Admit { .. } if !empty => Err(13),
        _ if empty && !matches!(call, Call::Admit { .. }) => Err(13),
        Call::Admit { sequence, read_back, service_only } => Bay::new(sequence, *read_back, *service_only).map(|bay| {
            put(stretch, Some(&bay));
            Written::default()
        }),
        Call::Release => {
            put(stretch, None);
            Ok(Written::default())
        }
        Call::Tick { answer_length, record_length, .. }
            if [*answer_length, *record_length] != [ANSWER_LENGTH, RECORD_LENGTH] =>
        {
            Err(1)
        }
        Call::Tick { input, .. } => instant(&here, *input).and_then(|[answer, state]| {
            let (number, before) = (here.number.saturating_add(1), totals(stretch));
            put_changed(stretch, &before, &added(&before, &litres(&here, *input))?);
            put_state(stretch, &state);
            put_number(stretch, number);
            let record = record(number, *input, &answer, &state);
            Ok([answer, record])
        }),
        Call::Save { .. } if here.state[0] != WAITING => Err(15),
        Call::Save { name } => saved(stretch, given, *name, here.state).map(nothing),
        Call::Restore { name } => restored(stretch, given, *name).map(nothing),
        Call::Forget { name } => forgotten(stretch, given, *name).map(nothing),
        Call::Service { record, view_length } => match (record.len(), *view_length) {
            (RECORD_LENGTH, RECORD_LENGTH) => Ok([record.clone(), vec![]]),
            _ => Err(1),
        },
        Call::Panel { record, view_length } => match (record.len(), *view_length) {
            (RECORD_LENGTH, PANEL_LENGTH) => Ok([panel(record, here.service_only), vec![]]),
            _ => Err(1),
        },
        Call::Preview { preview_length, .. } if *preview_length != PREVIEW_LENGTH => Err(1),
        Call::Preview { input, unknown, .. } => {
            preview(*input, *unknown, |input| instant(&here, input).map(|[answer, _]| answer))
                .map(|preview| [preview, vec![]])
        }
    };
    (given, after)
}

/// Whether an admission to an empty bay may, and whether it must, be given 14: a bay without a sequence may count or not.
fn above(bytes: &[u8], ceiling: u64) -> (bool, bool) {
    let stretches = || (0..BAYS).map(|bay| held(&bytes[layout::stretch(bay)]));
    let all: u64 = stretches().map(|here| here.ceiling as u64).sum();
    let filled: u64 = stretches().filter(|here| here.length > 0).map(|here| here.ceiling as u64).sum();
    (all + ceiling > SHARED, filled + ceiling > SHARED)
}

fn compare(tally: &mut Tally, bytes: &[u8], bay: u32, call: &Call, given: &Given, memory: &mut Memory) {
    let (mut result, mut after) = expected(bytes, memory.bytes(), bay, call);
    if let (Call::Admit { sequence, read_back, .. }, Ok(_)) = (call, &result) {
        let ceiling = Bay::new(sequence, *read_back, 0).map_or(0, |bay| bay.ceiling);
        let (may, must) = above(bytes, ceiling);
        if must || may && given.number == 14 {
            result = Err(14);
            after = bytes.to_vec();
        }
    }
    if let (Call::Ledger { .. }, 0) = (call, given.number) {
        let near = close(&given.written[0], &totals(&bytes[layout::stretch(bay as usize)]));
        tally.counts.expect(near, || format!("foreign: {} is not close to the exact sum", call.text(bay)));
    }
    let same = memory.holds(&after);
    tally.counts.expect(same && given.is(&result), || {
        let number = result.err().unwrap_or(0);
        format!("foreign: {} and not {number}, box as it should be: {same}, {}", given.number, call.text(bay))
    });
}

/// Some calls to each of so many boxes.
pub fn boxes(tally: &mut Tally, random: &mut Random, count: usize) {
    let (mut run, mut archive) = (Run::new(), Archive::new());
    let mut memory = Memory::new(run.model.length);
    for i in 0..count {
        if i % 32 == 0 {
            run.clear(random);
        }
        (0..4).for_each(|_| {
            let request = request(random, &run.model, 20, 50);
            run.step(tally, &request);
        });
        let bytes = foreign(random, run.bytes());
        memory.place(&bytes, random.chance(50), 0xC3);
        for _ in 0..12 {
            let request = request(random, &run.model, 40, 60);
            let bay = if random.chance(98) { random.below(BAYS) as u32 } else { request.bay };
            let before = memory.bytes().to_vec();
            let given = archive.call(&mut memory, bay, &request.call, false);
            tally.count(&request.call, given.number);
            compare(tally, &before, bay, &request.call, &given, &mut memory);
        }
    }
}
