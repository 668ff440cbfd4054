//! The tables of ticks, host/ticks.txt and host/printed.txt; the top of each explains its lines.
use crate::reference::{Instant, Sequence};
use common::table;

pub struct Tick {
    pub line: String,
    pub sequence: Sequence,
    pub state: Vec<u8>,
    pub input: u32,
    pub answer_length: usize,
    /// Both records afterwards, state and answer, or the number that turns the tick down.
    expected: Result<(Vec<u8>, Vec<u8>), u8>,
}

impl Tick {
    /// Is this what the line says?
    pub fn gives(&self, given: Result<Instant, u8>) -> bool {
        given.map(|instant| (instant.state, instant.answer)) == self.expected
    }
}

pub fn read(table: &str) -> impl Iterator<Item = Tick> + '_ {
    table::lines(table).map(|(number, text)| {
        let fields: Vec<&str> = text.split('|').map(str::trim).collect();
        let expected = match fields[4..] {
            [state, answer] => Ok((table::bytes(state), table::bytes(answer))),
            _ => Err(number),
        };
        let (sequence, read_back) = table::program(fields[0]);
        Tick {
            line: format!("{number}:{text}"),
            sequence: Sequence::new(sequence, read_back),
            state: table::bytes(fields[1]),
            input: u32::from_str_radix(fields[3], 16).expect("an input"),
            answer_length: fields[2].parse().expect("a length"),
            expected,
        }
    })
}
