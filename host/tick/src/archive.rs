//! The archive's tick, in buffers between guard bytes.
use common::table::hex;

extern "C" {
    fn intake_tick(
        sequence: *const u8,
        sequence_length: usize,
        state: *mut u8,
        state_length: usize,
        input: u32,
        read_back: u32,
        answer: *mut u8,
        answer_length: usize,
    ) -> u8;
}

const GUARD: usize = 16;

/// The length of an answer buffer that row 1 lets pass.
pub const ANSWER_LENGTH: usize = 12;

/// A buffer between guard bytes.
struct Guarded {
    bytes: Vec<u8>,
    guard: u8,
}

impl Guarded {
    fn new(content: impl Iterator<Item = u8>, guard: u8) -> Self {
        let mut bytes = vec![guard; GUARD];
        bytes.extend(content);
        bytes.extend([guard; GUARD]);
        Guarded { bytes, guard }
    }

    fn len(&self) -> usize {
        self.bytes.len() - 2 * GUARD
    }

    fn start(&mut self) -> *mut u8 {
        self.bytes[GUARD..].as_mut_ptr()
    }

    /// The content, if the guards are as they were.
    fn content(&self) -> Option<&[u8]> {
        let (before, rest) = self.bytes.split_at(GUARD);
        let (content, after) = rest.split_at(self.len());
        before.iter().chain(after).all(|&byte| byte == self.guard).then_some(content)
    }
}

/// The number and both buffers after a tick whose answer buffer was full of `fill`; None if the guards changed.
pub struct Outcome {
    pub number: u8,
    pub state: Option<Vec<u8>>,
    pub answer: Option<Vec<u8>>,
}

impl Outcome {
    /// The number and both buffers as a table writes them.
    pub fn text(&self) -> String {
        let text = |buffer: &Option<Vec<u8>>| buffer.as_deref().map_or("guards gone".into(), hex);
        format!("{}: {} | {}", self.number, text(&self.state), text(&self.answer))
    }
}

/// A call but for its sequence and the signals that this reads back.
#[derive(Clone, Copy)]
pub struct Call<'a> {
    pub state: &'a [u8],
    pub input: u32,
    pub answer_length: usize,
    pub fill: u8,
}

/// The tick of a sequence that reads these signals back.
pub fn tick((sequence, read_back): (&[u8], u32), call: Call) -> Outcome {
    let Call { state, input, answer_length, fill } = call;
    let mut state = Guarded::new(state.iter().copied(), !fill);
    let mut answer = Guarded::new((0..answer_length).map(|_| fill), !fill);
    let (state_length, answer_length) = (state.len(), answer.len());
    let (sequence, length) = (sequence.as_ptr(), sequence.len());
    let (state_start, answer_start) = (state.start(), answer.start());
    // Safe: three buffers that share no byte, each with its own pointer and length.
    let number = unsafe {
        intake_tick(sequence, length, state_start, state_length, input, read_back, answer_start, answer_length)
    };
    let bytes = |buffer: Guarded| buffer.content().map(<[u8]>::to_vec);
    Outcome { number, state: bytes(state), answer: bytes(answer) }
}
