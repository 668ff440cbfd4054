//! What document 01, with 02, says a tick gives: the number and both records, by the check on an explicit tree and the
//! expansion, inside the declarations of the read-back signals.
use crate::ceiling::Ceiling;
use crate::expansion::{expand, Tree, WRONG};
use crate::kernel::Kernel;
use crate::readback::Written;
use crate::rewriting::{Litres, Paper};
use crate::statement::{term, wrap, Order, Term};
use common::reference::{self, Labels, LABELS, STATE_LENGTH};
use common::table::hex;

/// What is read of an accepted sequence: its commands, its own term, that inside the read-back declarations, and what an
/// instant takes at most.
pub struct Read {
    pub tree: reference::Tree,
    pub bare: Term,
    pub wrapped: Term,
    pub ceiling: Ceiling,
}

/// A sequence with its read-back set: what is read of it, or the number of the row from 2 to 10 that turns it down; its
/// kernel form, if there is one, and its form without a set.
pub struct Sequence {
    pub bytes: Vec<u8>,
    pub read_back: u32,
    pub read: Result<Read, u8>,
    pub kernel: Option<Kernel>,
    pub written: Option<Written>,
}

impl Sequence {
    pub fn new(bytes: Vec<u8>, read_back: u32) -> Self {
        let read = reference::check(&bytes, read_back).map(|tree| {
            let bare = term(&tree);
            Read { wrapped: wrap(read_back, &bare), ceiling: Ceiling::of(&tree, read_back), tree, bare }
        });
        let kernel = read.as_ref().ok().and_then(|read| Kernel::of(&bytes, &read.tree, read_back));
        let written = read.as_ref().ok().and_then(|_| Written::of(&bytes, read_back));
        Sequence { bytes, read_back, read, kernel, written }
    }

    pub fn program(&self) -> (&[u8], u32) {
        (&self.bytes, self.read_back)
    }

    /// As a table writes it.
    pub fn text(&self) -> String {
        format!("{} & {:08X}", hex(&self.bytes), self.read_back)
    }

    pub fn setpauses(&self) -> usize {
        self.read.as_ref().map_or(0, |read| read.tree.setpauses().len())
    }

    /// The fitters' paper, fresh, of an accepted sequence without setpause.
    pub fn paper(&self) -> Option<Paper> {
        let read = self.read.as_ref().ok().filter(|_| self.setpauses() == 0)?;
        Some(Paper::Fresh(read.wrapped.clone()))
    }
}

/// An accepted tick: both records afterwards, and what happened in the instant.
pub struct Instant {
    pub state: Vec<u8>,
    pub answer: Vec<u8>,
    /// Of the chosen run, but of local signals; none of a wrong instant.
    pub deliveries: Vec<(u8, u32)>,
    pub tree: Tree,
}

impl Instant {
    /// What the deliveries of each farm sum to, where that is not 0.
    pub fn litres(&self) -> Litres {
        let farms = (0..32).map(|farm| {
            let own = self.deliveries.iter().filter(|delivery| delivery.0 == farm);
            (farm, own.map(|delivery| u64::from(delivery.1)).sum())
        });
        farms.filter(|(_, sum): &(u8, u64)| *sum > 0).collect()
    }

    /// The line of a listing (01, 'Bays to run').
    pub fn line(&self, number: usize) -> String {
        let value = |bytes: &[u8]| bytes.iter().rev().fold(0u128, |n, byte| n << 8 | *byte as u128);
        let (code, kind, place) = (self.answer[0], self.answer[1], value(&self.answer[2..4]));
        let (emitted, labels) = (value(&self.answer[4..8]), value(&self.state[1..]));
        format!("{number} {code} {kind} {place} {emitted:08x} {labels:032x}")
    }
}

/// The tick as 02, items 4 and 5, have it.
pub fn tick(sequence: &Sequence, state: &[u8], input: u32, answer_length: usize) -> Result<Instant, u8> {
    tick_by(Order::InheritanceFirst, sequence, state, input, answer_length)
}

/// 01, 'Turned down' and 'States and resuming', by either order of the signal rules.
pub fn tick_by(
    order: Order,
    sequence: &Sequence,
    state: &[u8],
    input: u32,
    answer_length: usize,
) -> Result<Instant, u8> {
    if state.len() != STATE_LENGTH || answer_length != 12 {
        return Err(1);
    }
    let read = sequence.read.as_ref().map_err(|number| *number)?;
    instant(order, &read.tree, &read.wrapped, state, input)
}

/// An instant of the machine of these commands, by their term, bare or wrapped: rows 11 and 12, then the reaction.
pub fn instant(order: Order, commands: &reference::Tree, term: &Term, state: &[u8], input: u32) -> Result<Instant, u8> {
    let active = |l: &usize| state[1 + l / 8] >> (l % 8) & 1 == 1;
    let labels = (0..LABELS).filter(active).fold(0, |set: Labels, l| set | 1 << l);
    let now = match state[0] {
        0 if labels == 0 => term.clone(),
        1 if commands.valid(labels) => expand(term, labels).expect("a valid set has an active pause"),
        2 if labels == 0 => return Err(12),
        _ => return Err(11),
    };
    let mut tree = Tree { order, ..Tree::default() };
    let reaction = tree.react(&now, input);
    let wrong = reaction.code == WRONG;
    let (kind, place) = if wrong { tree.errors[0] } else { (0, 0) };
    let phase = if reaction.code == 1 { 1 } else { 2 };
    let mut answer = vec![if wrong { 255 } else { reaction.code as u8 }, kind];
    answer.extend([(place % 256) as u8, (place / 256) as u8]);
    answer.extend((0..4).map(|i| if wrong { 0 } else { (reaction.emitted >> (8 * i)) as u8 }));
    answer.extend((0..4).map(|i| (tree.reactions >> (8 * i)) as u8));
    let labels = (0..LABELS / 8).map(|i| (reaction.labels >> (8 * i)) as u8);
    let deliveries = if wrong { vec![] } else { reaction.deliveries };
    Ok(Instant { state: [phase].into_iter().chain(labels).collect(), answer, deliveries, tree })
}
