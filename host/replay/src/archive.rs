//! The archive's replay. The place that it is lent is never 0, so that a call which leaves it is seen.
extern "C" {
    fn intake_replay(
        sequence: *const u8,
        sequence_length: usize,
        read_back: u32,
        recording: *const u8,
        recording_length: usize,
        place: *mut usize,
    ) -> u8;
}

/// The number and the place after the call.
pub fn replay((sequence, read_back): (&[u8], u32), recording: &[u8]) -> (u8, usize) {
    let mut place = usize::MAX;
    // Safe: two buffers, each with its own pointer and length, and a place that share no byte.
    let number = unsafe {
        intake_replay(sequence.as_ptr(), sequence.len(), read_back, recording.as_ptr(), recording.len(), &mut place)
    };
    (number, place)
}
