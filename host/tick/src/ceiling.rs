//! The ceiling of 02, item 6, on the tree of commands; and sequences that reach it or are dear: that of docs/CEILING.md, and
//! such as take over 65,535 reactions in an instant.
use crate::archive::ANSWER_LENGTH;
use crate::reference::{tick, Sequence};
use crate::runs::record;
use crate::tally::Tally;
use common::reference::{Tree, LOOP};
use common::table::bytes;

/// What the ceiling is made of, read-back declarations counted as commands and as signals.
#[derive(Clone, Copy)]
pub struct Ceiling {
    pub commands: u64,
    /// The greatest number of loops, and of signals, around a command.
    pub loops: u64,
    pub signals: u32,
}

impl Ceiling {
    pub fn of(tree: &Tree, read_back: u32) -> Ceiling {
        let declared = read_back.count_ones();
        Ceiling {
            commands: tree.0.len() as u64 + declared as u64,
            loops: tree.most_around(LOOP) as u64,
            signals: tree.nesting() as u32 + declared,
        }
    }

    /// What any instant takes at most.
    pub fn most(self) -> u64 {
        self.commands * (1 + self.loops) * (1 << self.signals)
    }

    /// What any instant of a sequence of so many commands takes at most, if none is a loop: where six of them are signals
    /// around all others, or all but one.
    pub fn without_loops(self) -> u64 {
        let signals = (self.commands - 1).min(6);
        (self.commands - signals + 1) * (1 << signals) - 1
    }

    /// Can an instant, of a fresh machine or not, take so many? A fresh one takes no round of a loop again.
    pub fn allows(self, fresh: bool, reactions: u64) -> bool {
        reactions <= self.most()
            && (!fresh || reactions <= self.commands * (1 << self.signals))
            && (self.loops > 0 || reactions <= self.without_loops())
    }
}

/// The instants of a fresh machine on empty inputs, each compared with the archive and the paper: their reactions.
fn reactions(tally: &mut Tally, sequence: &Sequence, instants: usize) -> Vec<u64> {
    let (mut state, mut paper) = (record(0, 0), sequence.paper());
    let one = |_| {
        tally.compare(sequence, &state, 0, ANSWER_LENGTH, paper.as_mut());
        let instant = tick(sequence, &state, 0, ANSWER_LENGTH).ok()?;
        state = instant.state;
        Some(instant.tree.reactions)
    };
    (0..instants).map_while(one).collect()
}

/// Runs a sequence and expects these reactions and this ceiling.
fn expect(tally: &mut Tally, text: &str, taken: &[u64], most: u64) {
    let sequence = Sequence::new(bytes(text), 0);
    let given = reactions(tally, &sequence, taken.len());
    let ceiling = sequence.read.as_ref().map_or(0, |read| read.ceiling.most());
    tally.counts.expect(given == taken && ceiling == most, || format!("{given:?} of at most {ceiling}: {text}"));
}

/// The bytes of docs/CEILING.md: 100 commands, no loop, 6,079 reactions when fresh.
fn documented(tally: &mut Tally) {
    let page = include_str!("../../../docs/CEILING.md");
    let block = page.split("```text\n08 00 ").nth(1).and_then(|rest| rest.split("```").next()).expect("the bytes");
    let text = format!("08 00 {block}");
    expect(tally, &text, &[6079], 6400);
    let sequence = Sequence::new(bytes(&text), 0);
    let shape = sequence.read.as_ref().map(|read| (read.ceiling.commands, read.ceiling.loops, sequence.bytes.len()));
    tally.counts.expect(shape == Ok((100, 0, 106)), || format!("100 commands without loops in 106 bytes: {shape:?}"));
}

/// Signals, declared or read back, around loops that the second instant leaves and begins again, around 255 commands.
fn dear(tally: &mut Tally, declared: usize, loops: usize) {
    let signals: String = (0..declared).map(|s| format!("08 {s:02X} ")).collect();
    let begun: String = (0..loops).map(|l| format!("06 09 05 04 01 {l:02X} 03 01 ")).collect();
    let body = format!("{}00{}", "04 2(".repeat(7), ")".repeat(7));
    let sequence = Sequence::new(bytes(&format!("{signals}{begun}{body}")), 0x3F >> declared);
    let given = reactions(tally, &sequence, 2);
    let dear = given.len() == 2 && given[1] > 65_535;
    tally.counts.expect(dear, || format!("{given:?} reactions: {}", sequence.text()));
}

pub fn ceilings(tally: &mut Tally) {
    expect(tally, "06 01 00", &[2, 4, 4], 4);
    expect(tally, "06 0B 00 01 00", &[3, 6, 6], 6);
    expect(tally, "63(06) 01 00", &[64, 66, 66], 64 * 64);
    documented(tally);
    for loops in 8..=16 {
        dear(tally, 6, loops);
        dear(tally, 0, loops);
        dear(tally, 3, loops);
    }
}
