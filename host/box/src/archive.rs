//! The archive's calls on a box, in guarded memory.
use crate::memory::Memory;
use common::table::hex;

extern "C" {
    fn intake_box_admit(
        the_box: *mut u8,
        box_length: usize,
        bay: u32,
        sequence: *const u8,
        sequence_length: usize,
        read_back: u32,
        service_only: u32,
    ) -> u8;
    fn intake_box_release(the_box: *mut u8, box_length: usize, bay: u32) -> u8;
    fn intake_box_tick(
        the_box: *mut u8,
        box_length: usize,
        bay: u32,
        input: u32,
        answer: *mut u8,
        answer_length: usize,
        record: *mut u8,
        record_length: usize,
    ) -> u8;
    fn intake_box_save(the_box: *mut u8, box_length: usize, bay: u32, name: u32) -> u8;
    fn intake_box_restore(the_box: *mut u8, box_length: usize, bay: u32, name: u32) -> u8;
    fn intake_box_forget(the_box: *mut u8, box_length: usize, bay: u32, name: u32) -> u8;
    fn intake_box_service(
        the_box: *const u8,
        box_length: usize,
        bay: u32,
        record: *const u8,
        record_length: usize,
        view: *mut u8,
        view_length: usize,
    ) -> u8;
    fn intake_box_panel(
        the_box: *const u8,
        box_length: usize,
        bay: u32,
        record: *const u8,
        record_length: usize,
        view: *mut u8,
        view_length: usize,
    ) -> u8;
    fn intake_box_preview(
        the_box: *const u8,
        box_length: usize,
        bay: u32,
        input: u32,
        unknown: u32,
        preview: *mut u8,
        preview_length: usize,
    ) -> u8;
    fn intake_box_ledger(the_box: *const u8, box_length: usize, bay: u32, totals: *mut u8, totals_length: usize) -> u8;
    fn intake_box_new_year(the_box: *mut u8, box_length: usize, bay: u32) -> u8;
}

/// What is asked of a bay.
#[derive(Clone)]
pub enum Call {
    Admit { sequence: Vec<u8>, read_back: u32, service_only: u32 },
    Release,
    Tick { input: u32, answer_length: usize, record_length: usize },
    Save { name: u32 },
    Restore { name: u32 },
    Forget { name: u32 },
    Service { record: Vec<u8>, view_length: usize },
    Panel { record: Vec<u8>, view_length: usize },
    Preview { input: u32, unknown: u32, preview_length: usize },
    Ledger { totals_length: usize },
    NewYear,
}

pub const CALLS: [&str; 11] =
    ["admit", "release", "tick", "save", "restore", "forget", "service", "panel", "preview", "ledger", "new year"];

/// What a call writes to what it is lent beside the box: the answer and the record of a tick, the view of a reader, a
/// preview, or what is read of a ledger.
pub type Written = [Vec<u8>; 2];

impl Call {
    /// Its place among the calls.
    pub fn index(&self) -> usize {
        match self {
            Call::Admit { .. } => 0,
            Call::Release => 1,
            Call::Tick { .. } => 2,
            Call::Save { .. } => 3,
            Call::Restore { .. } => 4,
            Call::Forget { .. } => 5,
            Call::Service { .. } => 6,
            Call::Panel { .. } => 7,
            Call::Preview { .. } => 8,
            Call::Ledger { .. } => 9,
            Call::NewYear => 10,
        }
    }

    /// Whether its box is only read.
    pub fn reads(&self) -> bool {
        matches!(self, Call::Service { .. } | Call::Panel { .. } | Call::Preview { .. } | Call::Ledger { .. })
    }

    /// The call with its bay, for a message.
    pub fn text(&self, bay: u32) -> String {
        match self {
            Call::Admit { sequence, read_back, service_only } => {
                format!("admit {bay}: {} & {read_back:08X}, service only {service_only:08X}", hex(sequence))
            }
            Call::Release | Call::NewYear => format!("{} {bay}", CALLS[self.index()]),
            Call::Ledger { totals_length } => format!("ledger {bay}: {totals_length}"),
            Call::Tick { input, answer_length, record_length } => {
                format!("tick {bay}: {input:08X} | {answer_length} | {record_length}")
            }
            Call::Save { name } | Call::Restore { name } | Call::Forget { name } => {
                format!("{} {bay}: name {name:08X}", CALLS[self.index()])
            }
            Call::Service { record, view_length } | Call::Panel { record, view_length } => {
                format!("{} {bay}: {} | {view_length}", CALLS[self.index()], hex(record))
            }
            Call::Preview { input, unknown, preview_length } => {
                format!("preview {bay}: {input:08X}, unknown {unknown:08X} | {preview_length}")
            }
        }
    }
}

/// The longest buffer beside the box that a test passes.
const MOST: usize = 4096;

/// The memory for what a call is lent beside its box.
pub struct Archive {
    /// A sequence, or the record that is shown.
    read: Memory,
    written: [Memory; 2],
    /// Turns with every call: where in its pages a buffer stands, and what stands around it.
    turn: u8,
}

impl Archive {
    pub fn new() -> Self {
        Archive { read: Memory::new(MOST), written: [Memory::new(MOST), Memory::new(MOST)], turn: 0 }
    }

    /// Makes a call to a bay of the box that is lent. With `sealed` neither it nor what is lent beside it can be written
    /// during the call. A box that is only read never can.
    pub fn call(&mut self, lent: &mut Memory, bay: u32, call: &Call, sealed: bool) -> Given {
        self.turn = self.turn.wrapping_add(1);
        let (at_end, fill) = (self.turn & 1 == 0, self.turn);
        let (read, lengths) = match call {
            Call::Admit { sequence, .. } => (&sequence[..], [0, 0]),
            Call::Tick { answer_length, record_length, .. } => (&[][..], [*answer_length, *record_length]),
            Call::Service { record, view_length } | Call::Panel { record, view_length } => {
                (&record[..], [*view_length, 0])
            }
            Call::Preview { preview_length, .. } => (&[][..], [*preview_length, 0]),
            Call::Ledger { totals_length } => (&[][..], [*totals_length, 0]),
            _ => (&[][..], [0, 0]),
        };
        let before = lengths.map(|length| vec![fill; length]);
        self.read.place(read, at_end, fill);
        self.read.writable(false);
        for (memory, content) in self.written.iter_mut().zip(&before) {
            memory.place(content, at_end, !fill);
            memory.writable(!sealed);
        }
        lent.writable(!sealed && !call.reads());
        let number = self.made(lent, bay, call);
        lent.writable(true);
        self.read.writable(true);
        let mut kept = self.read.holds(read);
        let written = std::array::from_fn(|i| {
            let memory = &mut self.written[i];
            memory.writable(true);
            let bytes = memory.bytes().to_vec();
            kept &= memory.holds(&bytes);
            bytes
        });
        Given { number, before, written, kept }
    }

    fn made(&mut self, lent: &mut Memory, bay: u32, call: &Call) -> u8 {
        let (the_box, length) = lent.lent();
        let (read, read_length) = self.read.lent();
        let [(first, first_length), (second, second_length)] = self.written.each_mut().map(Memory::lent);
        // Safe: buffers that share no byte, each with its own pointer and length.
        unsafe {
            match call {
                Call::Admit { read_back, service_only, .. } => {
                    intake_box_admit(the_box, length, bay, read, read_length, *read_back, *service_only)
                }
                Call::Release => intake_box_release(the_box, length, bay),
                Call::Tick { input, .. } => {
                    intake_box_tick(the_box, length, bay, *input, first, first_length, second, second_length)
                }
                Call::Save { name } => intake_box_save(the_box, length, bay, *name),
                Call::Restore { name } => intake_box_restore(the_box, length, bay, *name),
                Call::Forget { name } => intake_box_forget(the_box, length, bay, *name),
                Call::Service { .. } => {
                    intake_box_service(the_box, length, bay, read, read_length, first, first_length)
                }
                Call::Panel { .. } => intake_box_panel(the_box, length, bay, read, read_length, first, first_length),
                Call::Preview { input, unknown, .. } => {
                    intake_box_preview(the_box, length, bay, *input, *unknown, first, first_length)
                }
                Call::Ledger { .. } => intake_box_ledger(the_box, length, bay, first, first_length),
                Call::NewYear => intake_box_new_year(the_box, length, bay),
            }
        }
    }
}

/// The number of a call, what it may write before and after it, and whether nothing beside the buffers changed.
pub struct Given {
    pub number: u8,
    pub before: Written,
    pub written: Written,
    kept: bool,
}

impl Given {
    /// Whether the call gave this: a number, or acceptance with what it wrote beside the box.
    pub fn is(&self, expected: &Result<Written, u8>) -> bool {
        let (number, written) = match expected {
            Ok(written) => (0, written),
            Err(number) => (*number, &self.before),
        };
        self.kept && self.number == number && self.written == *written
    }
}
