//! Suspend in the kernel: each pause l inside suspend s becomes
//! `try loop (pause l; present s then nothing else exit 1)`, and the suspend itself goes. By the rule of Berry (1999),
//! which 02, item 1, names, both give the same number, code, kind, emitted set and state record, from every state
//! record, reachable or not, on two premises:
//!
//! - No signal inside the suspend declares s again, or the added test would read that one: 0B 00 08 00 04 01 00 02 01
//!   is stopped by an input 0 in its second instant, and its kernel form ends. A suspend with such a signal inside
//!   stays; the suspends around and inside it are replaced all the same.
//! - The kernel form has at most 1,024 bytes and depth 64: a pause inside n suspends takes 8 bytes for each of them,
//!   and the tests added last stand 3n + 1 levels below the place of the pause. Else row 2 or 6 turns it down.
//!
//! Nothing else is asked. The added exit leaves the try that is added with it, which holds no exit of the sequence, so
//! no other exit counts differently. In suspends inside each other the outermost tests first, so its test stands
//! nearest to the pause. A label stays with its pause, so a setpause reaches the same one, and the added sequence
//! holds a single pause and no setpause: nothing becomes exclusive, and rows 8 to 11 say the same. The added loop
//! begins with a pause and never errs. Only places and reactions differ: the erring command is the same, at its own place
//! in the kernel form; a read-back declaration (item 5) has none in either, and its errors stay outside. The reactions are
//! those of the kernel form's expansion.
use crate::archive::Call;
use crate::reference::instant;
use crate::statement::{term, wrap, Order, Term, OUTSIDE};
use common::reference::{check, Tree, PAUSE, SIGNAL, SUSPEND};

pub struct Kernel {
    pub bytes: Vec<u8>,
    /// Its commands and its term inside the read-back declarations, or the row that turns it down.
    pub read: Result<(Tree, Term), u8>,
    /// The most suspends that are replaced around one pause.
    pub nested: usize,
    /// The place of each command, and its place in the kernel form.
    places: Vec<(usize, usize)>,
}

impl Kernel {
    /// The kernel form of a sequence that is accepted with this read-back set; None if no suspend can be replaced.
    pub fn of(sequence: &[u8], tree: &Tree, read_back: u32) -> Option<Kernel> {
        let replaced: Vec<bool> = (0..tree.0.len()).map(|i| replaceable(tree, i)).collect();
        let (mut bytes, mut places, mut nested) = (Vec::new(), Vec::new(), 0);
        for (i, command) in tree.0.iter().enumerate() {
            places.push((command.at, bytes.len()));
            let end = tree.0.get(i + 1).map_or(sequence.len(), |next| next.at);
            let around = command.place.iter().filter(|around| command.byte == PAUSE && replaced[around.0]);
            let tested: Vec<u8> = around.map(|around| tree.0[around.0].operand).collect();
            bytes.extend([0x09, 0x06, 0x04].repeat(tested.len()));
            bytes.extend(if replaced[i] { &[] } else { &sequence[command.at..end] });
            tested.iter().for_each(|&s| bytes.extend([0x07, s, 0x00, 0x03, 0x01]));
            nested = nested.max(tested.len());
        }
        if !replaced.contains(&true) {
            return None;
        }
        let read = check(&bytes, read_back).map(|tree| {
            let wrapped = wrap(read_back, &term(&tree));
            (tree, wrapped)
        });
        Some(Kernel { bytes, read, nested, places })
    }

    /// The answer record of an instant, with the place at which the erring command stands in the kernel form, and with the
    /// reactions of that form.
    pub fn moved(&self, answer: &[u8], call: Call) -> Vec<u8> {
        let mut moved: Vec<u8> = answer.iter().copied().take(8).collect();
        if let [0xFF, _, low, high, ..] = &mut moved[..] {
            let place = *low as usize + 256 * *high as usize;
            let outside = (OUTSIDE, OUTSIDE);
            let there =
                self.places.iter().chain([&outside]).find(|(at, _)| *at == place).map_or(0xFFFE, |found| found.1);
            (*low, *high) = ((there % 256) as u8, (there / 256) as u8);
        }
        let own = self.read.as_ref().ok();
        let own = own.and_then(|(tree, term)| instant(Order::default(), tree, term, call.state, call.input).ok());
        moved.extend(own.map_or(vec![], |own| own.answer[8..].to_vec()));
        moved
    }
}

/// Is it a suspend whose signal is not declared again inside?
fn replaceable(tree: &Tree, i: usize) -> bool {
    let suspend = &tree.0[i];
    let mut inside = tree.0.iter().filter(|c| c.place.iter().any(|around| around.0 == i));
    suspend.byte == SUSPEND && !inside.any(|c| c.byte == SIGNAL && c.operand == suspend.operand)
}
