//! The archive's call, in a buffer between guard bytes, and a box in which original and result deliver.
extern "C" {
    fn intake_unroll(
        sequence: *const u8,
        sequence_length: usize,
        read_back: u32,
        result: *mut u8,
        buffer_length: usize,
        result_length: *mut usize,
    ) -> u8;
    fn intake_check(sequence: *const u8, length: usize, read_back: u32) -> u8;
    fn intake_box_admit(
        the_box: *mut u8,
        box_length: usize,
        bay: u32,
        sequence: *const u8,
        sequence_length: usize,
        read_back: u32,
        service_only: u32,
    ) -> u8;
    fn intake_box_tick(
        the_box: *mut u8,
        box_length: usize,
        bay: u32,
        input: u32,
        answer: *mut u8,
        answer_length: usize,
        record: *mut u8,
        record_length: usize,
    ) -> u8;
    fn intake_box_ledger(the_box: *const u8, box_length: usize, bay: u32, totals: *mut u8, totals_length: usize) -> u8;
}

/// The length of a buffer that number 1 lets pass.
pub const RESULT_LENGTH: usize = 1024;

const GUARD: usize = 16;

pub struct Outcome {
    pub number: u8,
    pub length: usize,
    /// The buffer after the call, or None if the guards changed.
    pub buffer: Option<Vec<u8>>,
}

/// The call with a buffer full of `fill`, and a length that was none.
pub fn unroll(sequence: &[u8], read_back: u32, buffer_length: usize, fill: u8) -> Outcome {
    let mut bytes = vec![!fill; GUARD];
    bytes.resize(GUARD + buffer_length, fill);
    bytes.resize(GUARD + buffer_length + GUARD, !fill);
    let mut length = usize::MAX;
    // Safe: a slice, a buffer and a length that share no byte, each with its own pointer.
    let number = unsafe {
        let result = bytes[GUARD..].as_mut_ptr();
        intake_unroll(sequence.as_ptr(), sequence.len(), read_back, result, buffer_length, &mut length)
    };
    let (before, rest) = bytes.split_at(GUARD);
    let (content, after) = rest.split_at(buffer_length);
    let kept = before.iter().chain(after).all(|&byte| byte == !fill);
    Outcome { number, length, buffer: kept.then(|| content.to_vec()) }
}

pub fn check(sequence: &[u8], read_back: u32) -> u8 {
    // Safe: the slice's own pointer and length.
    unsafe { intake_check(sequence.as_ptr(), sequence.len(), read_back) }
}

const BOX_LENGTH: usize = 12_184;
const ANSWER_LENGTH: usize = 12;
const RECORD_LENGTH: usize = 37;
const LEDGER_LENGTH: usize = 132;

/// An empty box.
pub struct Bays(Vec<u8>);

impl Bays {
    pub fn new() -> Self {
        Bays(vec![0; BOX_LENGTH])
    }

    pub fn admit(&mut self, bay: u32, (sequence, read_back): (&[u8], u32)) -> u8 {
        let (the_box, length) = (self.0.as_mut_ptr(), self.0.len());
        // Safe: two buffers that share no byte, each with its own pointer and length.
        unsafe { intake_box_admit(the_box, length, bay, sequence.as_ptr(), sequence.len(), read_back, 0) }
    }

    /// The number, and the code where it is 0.
    pub fn tick(&mut self, bay: u32, input: u32) -> (u8, u8) {
        let (mut answer, mut record) = ([0; ANSWER_LENGTH], [0; RECORD_LENGTH]);
        let (the_box, length) = (self.0.as_mut_ptr(), self.0.len());
        let (to, noted) = (answer.as_mut_ptr(), record.as_mut_ptr());
        // Safe: three buffers that share no byte, each with its own pointer and length.
        let number = unsafe { intake_box_tick(the_box, length, bay, input, to, ANSWER_LENGTH, noted, RECORD_LENGTH) };
        (number, answer[0])
    }

    pub fn ledger(&self, bay: u32) -> Vec<u8> {
        let mut totals = vec![0; LEDGER_LENGTH];
        // Safe: two buffers that share no byte, each with its own pointer and length.
        unsafe { intake_box_ledger(self.0.as_ptr(), self.0.len(), bay, totals.as_mut_ptr(), LEDGER_LENGTH) };
        totals
    }
}
