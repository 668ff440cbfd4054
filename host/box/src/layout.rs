//! The bytes of a box (docs/FORMAT.md, 'Box'): eight stretches of one length. Only comparisons with the archive look here.
use crate::ledgers::{self, Totals, FARMS};
use crate::model::{Bay, Model, BAYS, WAITING};
use common::reference::STATE_LENGTH;
use std::collections::BTreeMap;
use std::ops::Range;

/// Where the fields of a stretch begin.
const LENGTH: usize = 0;
const SEQUENCE: usize = 2;
const READ_BACK: usize = 1026;
const CEILING: usize = 1030;
const SERVICE_ONLY: usize = 1034;
const STATE: usize = 1038;
const NUMBER: usize = 1055;
const POSITIONS: usize = 1059;
/// What a release clears ends here: the ledger, of the bay's number and not of its machine, begins.
pub const LEDGER: usize = 1395;
pub const STRETCH: usize = 1523;

/// An entry of a position: the name, then a state record.
const NAME_BYTES: usize = std::mem::size_of::<u32>();
const ENTRY: usize = NAME_BYTES + STATE_LENGTH;

/// The length of a box, which the header names.
pub fn box_length() -> usize {
    let header = include_str!("../../../include/intake.h");
    let line = header.lines().find_map(|line| line.strip_prefix("#define INTAKE_BOX_LENGTH "));
    let length = line.and_then(|length| length.trim().parse().ok()).expect("INTAKE_BOX_LENGTH of the header");
    assert!(length == BAYS * STRETCH, "a box of {length} bytes is not eight stretches of {STRETCH}");
    length
}

/// Where a bay's stretch stands in a box.
pub fn stretch(bay: usize) -> Range<usize> {
    bay * STRETCH..(bay + 1) * STRETCH
}

/// Puts a bay, or none, into its stretch; the ledger stays.
pub fn put(stretch: &mut [u8], bay: Option<&Bay>) {
    stretch[..LEDGER].fill(0);
    let Some(bay) = bay else { return };
    put_sequence(stretch, &bay.sequence, bay.read_back);
    field(stretch, CEILING, &(bay.ceiling as u32).to_le_bytes());
    field(stretch, SERVICE_ONLY, &bay.service_only.to_le_bytes());
    put_number(stretch, bay.number);
    put_state(stretch, &bay.state);
    put_positions(stretch, &bay.positions);
}

fn field(stretch: &mut [u8], at: usize, bytes: &[u8]) {
    stretch[at..at + bytes.len()].copy_from_slice(bytes);
}

pub fn put_length(stretch: &mut [u8], length: u16) {
    field(stretch, LENGTH, &length.to_le_bytes());
}

/// Puts a sequence with its read-back set into a stretch; the bytes behind it stay.
pub fn put_sequence(stretch: &mut [u8], sequence: &[u8], read_back: u32) {
    put_length(stretch, sequence.len() as u16);
    field(stretch, SEQUENCE, sequence);
    field(stretch, READ_BACK, &read_back.to_le_bytes());
}

/// Puts the number of the last instant.
pub fn put_number(stretch: &mut [u8], number: u32) {
    field(stretch, NUMBER, &number.to_le_bytes());
}

pub fn put_state(stretch: &mut [u8], state: &[u8]) {
    field(stretch, STATE, state);
}

/// Where a stretch has its positions.
pub fn table() -> Range<usize> {
    POSITIONS..LEDGER
}

/// Puts entries into a stretch, free where there is none.
pub fn put_entries(stretch: &mut [u8], mut entries: impl Iterator<Item = Option<(u32, Vec<u8>)>>) {
    for bytes in stretch[table()].chunks_exact_mut(ENTRY) {
        bytes.fill(0);
        if let Some(Some((name, state))) = entries.next() {
            bytes[..NAME_BYTES].copy_from_slice(&name.to_le_bytes());
            bytes[NAME_BYTES..].copy_from_slice(&state);
        }
    }
}

pub fn put_positions(stretch: &mut [u8], positions: &BTreeMap<u32, Vec<u8>>) {
    put_entries(stretch, positions.iter().map(|(&name, state)| Some((name, state.clone()))));
}

/// The entries of a stretch: name and state record.
pub fn entries(stretch: &[u8]) -> impl Iterator<Item = (u32, &[u8])> {
    stretch[table()].chunks_exact(ENTRY).map(|entry| {
        let (name, state) = entry.split_at(NAME_BYTES);
        (u32::from_le_bytes(name.try_into().expect("four bytes")), state)
    })
}

/// The positions of a stretch, if they could be what calls have left: an entry is free or in use, and a name is there once.
pub fn positions(stretch: &[u8]) -> Option<BTreeMap<u32, Vec<u8>>> {
    let mut positions = BTreeMap::new();
    let free = |name: u32, state: &[u8]| name == 0 && state.iter().all(|&byte| byte == 0);
    for (name, state) in entries(stretch).filter(|&(name, state)| !free(name, state)) {
        if state[0] != WAITING || positions.insert(name, state.to_vec()).is_some() {
            return None;
        }
    }
    Some(positions)
}

/// Lets a stretch have its positions in the entries that `given` has for them: which ones is not promised. Of two stretches
/// with other positions the first stays.
pub fn arrange(stretch: &mut [u8], given: &[u8]) {
    if positions(stretch).is_some() && positions(stretch) == positions(given) {
        stretch[table()].copy_from_slice(&given[table()]);
    }
}

/// What the ledger of a stretch says.
pub fn totals(stretch: &[u8]) -> Totals {
    std::array::from_fn(|farm| ledgers::total(&stretch[LEDGER + 4 * farm..LEDGER + 4 * farm + 4]))
}

/// Puts the totals that are others than before; the bytes of all others stay.
pub fn put_changed(stretch: &mut [u8], before: &Totals, after: &Totals) {
    for farm in (0..FARMS).filter(|&farm| before[farm] != after[farm]) {
        field(stretch, LEDGER + 4 * farm, &ledgers::bytes(after[farm]));
    }
}

/// Every byte of a box as the model says, but for the ledgers, which are those of `ledgers`, and for the places of the
/// positions, which `given` tells.
pub fn image(model: &Model, ledgers: &[u8], given: &[u8]) -> Vec<u8> {
    let mut bytes = ledgers.to_vec();
    for bay in 0..BAYS {
        let own = &mut bytes[stretch(bay)];
        put(own, model.bays[bay].as_ref());
        arrange(own, &given[stretch(bay)]);
    }
    bytes
}

/// What any bytes of a stretch say.
pub struct Held<'a> {
    pub length: usize,
    /// None if the length is more than a sequence may have.
    pub sequence: Option<&'a [u8]>,
    pub read_back: u32,
    pub ceiling: u32,
    pub service_only: u32,
    pub state: &'a [u8],
    pub number: u32,
}

pub fn held(stretch: &[u8]) -> Held<'_> {
    let word = |at: usize| u32::from_le_bytes(stretch[at..at + 4].try_into().expect("four bytes"));
    let length = stretch[LENGTH] as usize + 256 * stretch[LENGTH + 1] as usize;
    Held {
        length,
        sequence: (length <= READ_BACK - SEQUENCE).then(|| &stretch[SEQUENCE..SEQUENCE + length]),
        read_back: word(READ_BACK),
        ceiling: word(CEILING),
        service_only: word(SERVICE_ONLY),
        state: &stretch[STATE..STATE + STATE_LENGTH],
        number: word(NUMBER),
    }
}
