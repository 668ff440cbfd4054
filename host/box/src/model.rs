//! A box as 02, items 8 to 12, word it: eight bays, each empty or with a machine of its own, the positions that were saved
//! of it and the number of its last instant; and a ledger for each bay number. It knows no bytes of a box.
use crate::archive::Written;
use crate::ledgers::{added, reading, Totals, READING_LENGTH};
use crate::previews::{preview, PREVIEW_LENGTH};
use crate::records::{panel, record, PANEL_LENGTH, RECORD_LENGTH};
use common::reference;
use common::reference::STATE_LENGTH;
use std::collections::BTreeMap;
use tick::archive::ANSWER_LENGTH;
use tick::ceiling::Ceiling;
use tick::reference::{instant, Instant};
use tick::rewriting::Litres;
use tick::statement::{term, wrap, Order, Term};

pub const BAYS: usize = 8;

/// What the ceilings of the bays present may sum to.
pub const SHARED: u64 = 65_536;

/// How many positions a bay keeps.
pub const POSITIONS: usize = 16;

/// The phase of a machine that waits.
pub const WAITING: u8 = 1;

/// A machine: what it was admitted with, what an instant of it takes at most, its state record, the state records that were
/// saved, by name, and the number of its last instant.
pub struct Bay {
    pub sequence: Vec<u8>,
    pub read_back: u32,
    pub service_only: u32,
    pub ceiling: u64,
    pub state: Vec<u8>,
    pub positions: BTreeMap<u32, Vec<u8>>,
    pub number: u32,
    tree: reference::Tree,
    term: Term,
}

impl Bay {
    /// A fresh machine, or the number of the check.
    pub fn new(sequence: &[u8], read_back: u32, service_only: u32) -> Result<Bay, u8> {
        let tree = reference::check(sequence, read_back)?;
        Ok(Bay {
            sequence: sequence.to_vec(),
            read_back,
            service_only,
            ceiling: Ceiling::of(&tree, read_back).most(),
            state: vec![0; STATE_LENGTH],
            positions: BTreeMap::new(),
            number: 0,
            term: wrap(read_back, &term(&tree)),
            tree,
        })
    }

    /// The next instant, or number 11 or 12.
    fn next(&self, input: u32) -> Result<Instant, u8> {
        instant(Order::InheritanceFirst, &self.tree, &self.term, &self.state, input)
    }

    /// What the next instant delivers; nothing if there is none.
    pub fn litres(&self, input: u32) -> Litres {
        self.next(input).map_or(Litres::new(), |instant| instant.litres())
    }

    /// The answer and the record of an instant, which goes into the ledger; or number 11, 12 or 19.
    fn tick(&mut self, input: u32, totals: &mut Totals) -> Result<Written, u8> {
        let instant = self.next(input)?;
        *totals = added(totals, &instant.litres())?;
        self.state = instant.state;
        self.number = self.number.saturating_add(1);
        let record = record(self.number, input, &instant.answer, &self.state);
        Ok([instant.answer, record])
    }

    /// The preview of the next instant, or number 11, 12 or 17.
    fn preview(&self, input: u32, unknown: u32) -> Result<Vec<u8>, u8> {
        preview(input, unknown, |input| self.next(input).map(|instant| instant.answer))
    }

    /// Number 15 unless the machine waits, then 16 for a seventeenth name.
    fn save(&mut self, name: u32) -> Result<(), u8> {
        if self.state[0] != WAITING {
            return Err(15);
        }
        if !self.positions.contains_key(&name) && self.positions.len() == POSITIONS {
            return Err(16);
        }
        self.positions.insert(name, self.state.clone());
        Ok(())
    }
}

#[derive(Default)]
pub struct Model {
    pub bays: [Option<Bay>; BAYS],
    pub ledgers: [Totals; BAYS],
    /// The length of a box that number 1 lets pass.
    pub length: usize,
    /// The last record that a tick has left.
    pub last: Vec<u8>,
}

impl Model {
    pub fn new(length: usize) -> Self {
        Model { length, ..Model::default() }
    }

    /// What the ceilings of those present sum to.
    pub fn taken(&self) -> u64 {
        self.bays.iter().flatten().map(|bay| bay.ceiling).sum()
    }

    /// The bay that a call means, empty on admission and filled otherwise; or number 13, or 1 for the box.
    fn bay(&mut self, length: usize, bay: u32, filled: bool) -> Result<&mut Option<Bay>, u8> {
        let right = length == self.length;
        let bay = self.bays.get_mut(bay as usize).ok_or(13)?;
        match (right, bay.is_some() == filled) {
            (false, _) => Err(1),
            (true, false) => Err(13),
            (true, true) => Ok(bay),
        }
    }

    pub fn admit(&mut self, length: usize, bay: u32, sequence: &[u8], sets: [u32; 2]) -> Result<(), u8> {
        let taken = self.taken();
        let place = self.bay(length, bay, false)?;
        let [read_back, service_only] = sets;
        let admitted = Bay::new(sequence, read_back, service_only)?;
        if taken + admitted.ceiling > SHARED {
            return Err(14);
        }
        *place = Some(admitted);
        Ok(())
    }

    pub fn release(&mut self, length: usize, bay: u32) -> Result<(), u8> {
        *self.bay(length, bay, true)? = None;
        Ok(())
    }

    pub fn tick(&mut self, length: usize, bay: u32, input: u32, lengths: [usize; 2]) -> Result<Written, u8> {
        self.filled(length, bay)?;
        if lengths != [ANSWER_LENGTH, RECORD_LENGTH] {
            return Err(1);
        }
        let own = self.bays[bay as usize].as_mut().expect("a filled bay");
        let written = own.tick(input, &mut self.ledgers[bay as usize])?;
        self.last.clone_from(&written[1]);
        Ok(written)
    }

    /// The ledger of a bay number, whether the bay is filled or not; or number 13, or 1 for the box.
    fn ledger_of(&mut self, length: usize, bay: u32) -> Result<&mut Totals, u8> {
        let right = length == self.length;
        let ledger = self.ledgers.get_mut(bay as usize).ok_or(13)?;
        right.then_some(ledger).ok_or(1)
    }

    pub fn ledger(&mut self, length: usize, bay: u32, totals_length: usize) -> Result<Vec<u8>, u8> {
        let totals = self.ledger_of(length, bay)?;
        match totals_length {
            READING_LENGTH => Ok(reading(totals)),
            _ => Err(1),
        }
    }

    pub fn new_year(&mut self, length: usize, bay: u32) -> Result<(), u8> {
        *self.ledger_of(length, bay)? = Totals::default();
        Ok(())
    }

    fn filled(&mut self, length: usize, bay: u32) -> Result<&mut Bay, u8> {
        Ok(self.bay(length, bay, true)?.as_mut().expect("a filled bay"))
    }

    pub fn save(&mut self, length: usize, bay: u32, name: u32) -> Result<(), u8> {
        self.filled(length, bay)?.save(name)
    }

    pub fn restore(&mut self, length: usize, bay: u32, name: u32) -> Result<(), u8> {
        let bay = self.filled(length, bay)?;
        bay.state = bay.positions.get(&name).ok_or(15)?.clone();
        Ok(())
    }

    pub fn forget(&mut self, length: usize, bay: u32, name: u32) -> Result<(), u8> {
        self.filled(length, bay)?.positions.remove(&name).map(|_| ()).ok_or(15)
    }

    pub fn service(&mut self, length: usize, bay: u32, record: &[u8], view_length: usize) -> Result<Vec<u8>, u8> {
        self.filled(length, bay)?;
        if record.len() != RECORD_LENGTH || view_length != RECORD_LENGTH {
            return Err(1);
        }
        Ok(record.to_vec())
    }

    pub fn panel(&mut self, length: usize, bay: u32, record: &[u8], view_length: usize) -> Result<Vec<u8>, u8> {
        let service_only = self.filled(length, bay)?.service_only;
        if record.len() != RECORD_LENGTH || view_length != PANEL_LENGTH {
            return Err(1);
        }
        Ok(panel(record, service_only))
    }

    pub fn preview(&mut self, length: usize, bay: u32, inputs: [u32; 2], preview_length: usize) -> Result<Vec<u8>, u8> {
        let bay = self.filled(length, bay)?;
        if preview_length != PREVIEW_LENGTH {
            return Err(1);
        }
        bay.preview(inputs[0], inputs[1])
    }
}
