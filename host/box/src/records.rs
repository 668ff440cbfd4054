//! The record of an instant and what the panel shows of it (02, item 10).
use common::reference::STATE_LENGTH;
use tick::archive::ANSWER_LENGTH;

/// Where the fields of a record begin.
const INPUTS: usize = 4;
const ANSWER: usize = 8;
const EMITTED: usize = ANSWER + 4;
pub const RECORD_LENGTH: usize = ANSWER + ANSWER_LENGTH + STATE_LENGTH;

/// Number, code, inputs and emitted set.
pub const PANEL_LENGTH: usize = 4 + 1 + 4 + 4;

pub fn record(number: u32, input: u32, answer: &[u8], state: &[u8]) -> Vec<u8> {
    [&number.to_le_bytes(), &input.to_le_bytes(), answer, state].concat()
}

/// What a panel shows of any record, with these signals for the service only.
pub fn panel(record: &[u8], service_only: u32) -> Vec<u8> {
    let shown = |at: usize| {
        let set = u32::from_le_bytes(record[at..at + 4].try_into().expect("four bytes"));
        (0..32).filter(|s| set >> s & 1 == 1 && service_only >> s & 1 == 0).fold(0, |shown: u32, s| shown | 1 << s)
    };
    let (inputs, emitted) = (shown(INPUTS).to_le_bytes(), shown(EMITTED).to_le_bytes());
    [&record[..INPUTS], &record[ANSWER..=ANSWER], &inputs, &emitted].concat()
}
