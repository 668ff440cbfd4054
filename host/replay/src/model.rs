//! A replay as 02, item 14, words it: each record is held to the one that a machine leaves, which starts fresh and goes on by
//! itself. The check and the instants are those of the other host tests.
use common::reference::STATE_LENGTH;
use tick::archive::ANSWER_LENGTH;
use tick::reference::{instant, Sequence};
use tick::statement::Order;

/// Number, inputs, answer and next state.
pub const RECORD_LENGTH: usize = 4 + 4 + ANSWER_LENGTH + STATE_LENGTH;

/// The bytes of a record that hold its inputs.
pub const INPUTS: std::ops::Range<usize> = 4..8;

/// A machine in some state, and the number of its last instant.
#[derive(Clone)]
pub struct Machine<'a> {
    sequence: &'a Sequence,
    pub state: Vec<u8>,
    pub number: u32,
}

impl<'a> Machine<'a> {
    pub fn fresh(sequence: &'a Sequence) -> Self {
        Machine { sequence, state: vec![0; STATE_LENGTH], number: 0 }
    }

    /// The record of its next instant, if there is one.
    pub fn record(&mut self, input: u32) -> Option<Vec<u8>> {
        let read = self.sequence.read.as_ref().expect("an accepted sequence");
        let next = instant(Order::InheritanceFirst, &read.tree, &read.wrapped, &self.state, input).ok()?;
        self.state = next.state;
        self.number = self.number.saturating_add(1);
        Some([&self.number.to_le_bytes()[..], &input.to_le_bytes(), &next.answer, &self.state].concat())
    }

    /// The records of its instants on these inputs, one after the other, as long as there are instants.
    pub fn recording(&mut self, inputs: &[u32]) -> Vec<u8> {
        inputs.iter().map_while(|input| self.record(*input)).flatten().collect()
    }
}

/// The number and the place.
pub fn replay(sequence: &Sequence, recording: &[u8]) -> (u8, usize) {
    if let Err(number) = sequence.read {
        return (number, 0);
    }
    if recording.len() % RECORD_LENGTH != 0 {
        return (22, 0);
    }
    let mut machine = Machine::fresh(sequence);
    let differs = |record: &[u8]| {
        let input = u32::from_le_bytes(record[INPUTS].try_into().expect("four bytes"));
        machine.record(input).as_deref() != Some(record)
    };
    (0, recording.chunks(RECORD_LENGTH).position(differs).map_or(0, |before| before + 1))
}
