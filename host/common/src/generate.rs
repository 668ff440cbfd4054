//! Random sequences of an exact length, most of them accepted or nearly so, damaged copies of them, and read-back sets.
use crate::reference::{LABELS, MOST_LITRES};

pub struct Random(pub u64);

impl Random {
    /// A number below n (xorshift64*).
    pub fn below(&mut self, n: usize) -> usize {
        self.0 ^= self.0 >> 12;
        self.0 ^= self.0 << 25;
        self.0 ^= self.0 >> 27;
        (self.0.wrapping_mul(0x2545_F491_4F6C_DD1D) >> 32) as usize % n
    }

    pub fn chance(&mut self, percent: usize) -> bool {
        self.below(100) < percent
    }

    pub fn pick<T: Copy>(&mut self, items: &[T]) -> T {
        items[self.below(items.len())]
    }
}

/// A sequence with the offsets of its commands.
pub struct Sequence {
    pub bytes: Vec<u8>,
    commands: Vec<usize>,
}

/// The number of commands: their bytes are 00 to 0C.
pub const COMMANDS: usize = 0x0D;

/// A byte that is no command.
const NONE: u8 = COMMANDS as u8;

/// The label of a setpause whose pauses are not all read yet.
const UNSET: u8 = 0xFF;

/// What a sequence is made of; drawn anew for each, so that extremes occur.
pub struct Style {
    /// How often each command is taken.
    pub weights: [usize; COMMANDS],
    /// Signals and exits are taken from so many.
    pub names: usize,
    pub exits: usize,
    /// How many percent of the loops and suspends get a body that waits, and of the signals one that uses them.
    pub framed: usize,
    /// Whether the whole is a loop.
    pub endless: bool,
    /// Which part of a command is kept small: 0 the first, 1 the second, else none.
    pub small: usize,
    /// Whether setpauses may stand where a parallel is around them and their labels.
    pub loose: bool,
    /// How many different labels there are, at most all; which ones is drawn.
    pub labels: usize,
    /// The greatest depth and the most signals around a command.
    pub levels: usize,
    pub signals: usize,
    /// Signals that count as declared around the whole: a read-back set.
    pub read_back: u32,
}

impl Style {
    /// Any names; now and then a level or a signal too many.
    pub fn any(random: &mut Random) -> Self {
        let mut weights = [0; COMMANDS];
        weights.fill_with(|| random.pick(&[0, 1, 1, 4, 16]));
        Style {
            weights,
            names: 32,
            exits: 15,
            framed: 0,
            endless: false,
            small: random.below(4),
            loose: random.chance(50),
            labels: random.pick(&[0, 2, 8, 40, LABELS, LABELS]),
            levels: if random.chance(90) { 64 } else { 65 },
            signals: if random.chance(90) { 6 } else { 7 },
            read_back: 0,
        }
    }
}

/// The commands around the body's own statement, in prefix order, and how much deeper that is than the body.
type Frame = (&'static [u8], usize);

/// The place of that statement.
const HOLE: u8 = 0xFE;

/// Bodies that wait: before, after or beside the statement, and one that the next instant leaves and begins again.
const LOOPS: [Frame; 4] = [
    (&[0x04, 0x01, HOLE], 1),
    (&[0x04, HOLE, 0x01], 1),
    (&[0x05, 0x01, HOLE], 1),
    (&[0x09, 0x05, 0x04, 0x01, 0x03, HOLE], 2),
];

/// Bodies that wait before, after or beside the statement.
const SUSPENDS: [Frame; 3] = [(&[0x04, 0x01, HOLE], 1), (&[0x04, HOLE, 0x01], 1), (&[0x05, 0x01, HOLE], 1)];

/// Bodies that emit the signal before, after or beside the statement, one that emits it in the second instant, two of
/// which one run is wrong, without the signal or with it, one whose statement reacts in the run without it alone, and two
/// that emit it with litres, one of which waits for it.
const SIGNALS: [Frame; 9] = [
    (&[0x04, 0x02, HOLE], 1),
    (&[0x04, HOLE, 0x02], 1),
    (&[0x05, HOLE, 0x02], 1),
    (&[0x05, HOLE, 0x04, 0x01, 0x02], 1),
    (&[0x05, 0x02, 0x07, HOLE, 0x06, 0x00], 2),
    (&[0x05, 0x02, 0x07, 0x06, 0x00, HOLE], 2),
    (&[0x05, 0x02, 0x07, 0x00, HOLE], 2),
    (&[0x04, 0x0C, HOLE], 1),
    (&[0x05, 0x0C, 0x07, HOLE, 0x00], 2),
];

struct Generator<'a> {
    random: &'a mut Random,
    style: Style,
    /// Labels for pauses to come.
    labels: Vec<u8>,
    /// The signals declared around the statement, read-back ones first.
    declared: Vec<u8>,
    bytes: Vec<u8>,
    commands: Vec<usize>,
    /// Offsets of the labels of pauses and setpauses.
    pauses: Vec<usize>,
    setpauses: Vec<usize>,
}

pub fn sequence(random: &mut Random, style: Style, length: usize) -> Sequence {
    let mut labels: Vec<u8> = (0..LABELS as u8).collect();
    (0..LABELS).for_each(|i| labels.swap(i, random.below(i + 1)));
    labels.truncate(style.labels);
    let (bytes, commands, pauses, setpauses) = (Vec::new(), Vec::new(), Vec::new(), Vec::new());
    let (levels, signals, endless) = (style.levels, style.signals, style.endless);
    let declared: Vec<u8> = (0..32).filter(|signal| style.read_back >> signal & 1 == 1).collect();
    let read_back = !declared.is_empty();
    let mut g = Generator { random, style, labels, declared, bytes, commands, pauses, setpauses };
    if endless && length > 1 {
        g.command(0x06);
        g.body(&LOOPS, length - 1, levels - 1, signals, true);
    } else if length > 0 && read_back {
        g.body(&SIGNALS, length, levels, signals, true);
    } else if length > 0 {
        g.statement(length, levels, signals, true);
    }
    g.settle(0, 0);
    g.disturb();
    Sequence { bytes: g.bytes, commands: g.commands }
}

/// The bytes of the longest statement of so many levels without a present, at most some 6,000.
fn capacity(levels: usize) -> usize {
    (3 << levels.min(12)) / 2 - 1
}

impl Generator<'_> {
    /// Appends a statement of exactly `length` bytes, with parallels in it or without.
    fn statement(&mut self, length: usize, levels: usize, signals: usize, parallels: bool) {
        if parallels && self.random.chance(10) {
            // All places of a statement without parallels are exclusive, so its own labels suit its setpauses.
            let (pauses, setpauses) = (self.pauses.len(), self.setpauses.len());
            self.statement(length, levels, signals, false);
            return self.settle(pauses, setpauses);
        }
        let part = capacity(levels - 1);
        let byte = self.choose(|g, byte| match byte {
            0x00 => length == 1,
            0x01 => length == 2 && !g.labels.is_empty(),
            0x02 | 0x03 => length == 2,
            0x04 => length >= 3,
            0x05 => length >= 3 && parallels,
            0x06 | 0x09 => length >= 2 && length - 1 <= part,
            0x07 => length >= 4,
            0x08 => length >= 3 && length - 2 <= part && signals > 0,
            0x0B => length >= 3 && length - 2 <= part,
            0x0C => length == 6,
            _ => length == 2 && (g.style.loose || !parallels),
        });
        let rest = length - self.command(byte);
        match byte {
            0x06 => self.body(&LOOPS, rest, levels - 1, signals, parallels),
            0x09 => self.statement(rest, levels - 1, signals, parallels),
            0x0B => self.body(&SUSPENDS, rest, levels - 1, signals, parallels),
            0x08 => {
                self.declared.extend(self.bytes.last());
                self.body(&SIGNALS, rest, levels - 1, signals - 1, parallels);
                self.declared.pop();
            }
            0x04 | 0x05 | 0x07 => {
                let first = self.split(rest, part);
                self.statement(first, levels - 1, signals, parallels);
                self.statement(rest - first, levels - 1, signals, parallels);
            }
            _ => {}
        }
    }

    /// Appends the body of a loop, a suspend or a signal: a statement, or one inside a frame, of exactly `length` bytes.
    fn body(&mut self, frames: &[Frame], length: usize, levels: usize, signals: usize, parallels: bool) {
        let (frame, depth) = self.random.pick(frames);
        let count = |byte: &u8| match byte {
            0x01 | 0x02 | 0x03 | 0x07 => 1,
            0x0C => 5,
            _ => 0,
        };
        let operands: usize = frame.iter().map(count).sum();
        let bytes = frame.len() - 1 + operands;
        let fits = levels > depth + 1 && length > bytes && length - bytes <= capacity(levels - depth);
        let fits = fits && (parallels || !frame.contains(&0x05));
        if !(fits && self.random.chance(self.style.framed)) {
            return self.statement(length, levels, signals, parallels);
        }
        for &byte in frame {
            if byte == HOLE {
                self.statement(length - bytes, levels - depth, signals, parallels);
                continue;
            }
            // the statement may have taken the last label
            let byte = if byte == 0x01 && self.labels.is_empty() { 0x02 } else { byte };
            let at = self.bytes.len() + 1;
            self.command(byte);
            match (byte, self.declared.last()) {
                (0x02 | 0x07 | 0x0C, Some(&s)) => self.bytes[at] = s,
                (0x03, _) => self.bytes[at] = 1,
                _ => {}
            }
        }
    }

    /// Appends a command with its operands, if it has any, and returns the count of bytes.
    fn command(&mut self, byte: u8) -> usize {
        self.commands.push(self.bytes.len());
        self.bytes.push(byte);
        1 + self.operand(byte)
    }

    /// One of the allowed commands by their weights, or the first of them.
    fn choose(&mut self, allowed: impl Fn(&Self, u8) -> bool) -> u8 {
        let candidates: Vec<u8> = (0..COMMANDS as u8).filter(|&byte| allowed(self, byte)).collect();
        let weights = candidates.iter().map(|&byte| self.style.weights[byte as usize]);
        let mut ticket = self.random.below(weights.clone().sum::<usize>().max(1));
        for (&byte, weight) in candidates.iter().zip(weights) {
            if ticket < weight {
                return byte;
            }
            ticket -= weight;
        }
        candidates[0]
    }

    /// Appends the operands of a command, if it has any, and returns the count of their bytes.
    fn operand(&mut self, byte: u8) -> usize {
        let at = self.bytes.len();
        match byte {
            0x01 => {
                self.pauses.push(at);
                self.bytes.extend(self.labels.pop());
            }
            0x0A => {
                self.setpauses.push(at);
                self.bytes.push(UNSET);
            }
            0x03 => self.bytes.push(1 + self.random.below(self.style.exits) as u8),
            0x02 | 0x07 | 0x0B | 0x0C if !self.declared.is_empty() && self.random.chance(self.style.framed) => {
                self.bytes.push(self.random.pick(&self.declared));
            }
            0x02 | 0x07 | 0x08 | 0x0B | 0x0C => self.bytes.push(self.random.below(self.style.names) as u8),
            _ => {}
        }
        if byte == 0x0C {
            self.bytes.extend(litres(self.random).to_le_bytes());
        }
        self.bytes.len() - at
    }

    /// The length of the first of two parts that share `rest` bytes, each of at most `part`.
    fn split(&mut self, rest: usize, part: usize) -> usize {
        let few = 1 + self.random.below(4);
        let first = match self.style.small {
            0 => few,
            1 => rest.saturating_sub(few),
            _ => self.random.below(rest),
        };
        first.clamp(1.max(rest.saturating_sub(part)), part.min(rest - 1))
    }

    /// Gives the setpauses from one index on labels of the pauses from another on; without any they become emits.
    fn settle(&mut self, pauses: usize, setpauses: usize) {
        for at in self.setpauses.split_off(setpauses) {
            if self.bytes[at] != UNSET {
                self.setpauses.push(at);
            } else if self.pauses.len() > pauses {
                self.bytes[at] = self.bytes[self.random.pick(&self.pauses[pauses..])];
                self.setpauses.push(at);
            } else {
                self.bytes[at - 1] = 0x02;
                self.bytes[at] = self.random.below(32) as u8;
            }
        }
    }

    /// Now and then exchanges one label, towards rows 8, 9 and 10.
    fn disturb(&mut self) {
        if !self.setpauses.is_empty() && self.random.chance(50) {
            let at = self.random.pick(&self.setpauses);
            self.bytes[at] = match self.random.below(8) {
                0 => self.random.below(LABELS) as u8,
                _ => self.bytes[self.random.pick(&self.pauses)],
            };
        }
        if !self.pauses.is_empty() && self.random.chance(5) {
            let (to, from) = (self.random.pick(&self.pauses), self.random.pick(&self.pauses));
            self.bytes[to] = self.bytes[from];
        }
    }
}

/// The bits of a whole number of litres: few, any, a power of two, or close to the most.
pub fn litres(random: &mut Random) -> u32 {
    let (most, few) = (MOST_LITRES as usize, random.below(10));
    let any = random.below(most + 1);
    let litres = match random.below(8) {
        0 | 1 => few,
        2 | 3 => any,
        4 => 1 << random.below(25),
        5 => any % 100_000,
        _ => most - random.pick(&[0, 0, 1, few, any / 2]),
    };
    (litres as f32).to_bits()
}

/// A read-back set of up to `most` signals, mostly such as the sequence names: emitted, tested, declared, or a suspend's.
pub fn read_back(random: &mut Random, sequence: &[u8], most: usize) -> u32 {
    let naming = |pair: &&[u8]| [0x02, 0x07, 0x08, 0x0B, 0x0C].contains(&pair[0]) && pair[1] < 32;
    let named: Vec<u8> = sequence.windows(2).filter(naming).map(|pair| pair[1]).collect();
    (0..random.below(most + 1)).fold(0, |set, _| match named.is_empty() || random.chance(10) {
        true => set | 1 << random.below(32),
        false => set | 1 << random.pick(&named),
    })
}

/// A set of exactly `count` signals.
pub fn set_of(random: &mut Random, count: usize) -> u32 {
    let mut set = 0u32;
    while (set.count_ones() as usize) < count.min(32) {
        set |= 1 << random.below(32);
    }
    set
}

/// The commands that a command is exchanged for: of its shape, so that the sequence stays readable, or none.
fn alike(byte: u8) -> &'static [u8] {
    match byte {
        0x01 | 0x02 | 0x03 | 0x0A => &[0x01, 0x02, 0x0A],
        0x04 | 0x05 => &[0x04, 0x05],
        0x06 | 0x09 => &[0x06, 0x09],
        0x08 | 0x0B => &[0x08, 0x0B],
        0x00 => &[0x00],
        0x0C => &[0x0C],
        _ => &[NONE],
    }
}

/// Operands around the ends of their ranges, and of a word of labels.
const EDGES: [u8; 10] = [0x00, 0x0F, 0x10, 0x1F, 0x20, 0x3F, 0x40, 0x7F, 0x80, 0xFF];

/// A copy damaged in one to three places.
pub fn damaged(random: &mut Random, sequence: &Sequence) -> Vec<u8> {
    let mut bytes = sequence.bytes.clone();
    for _ in 0..random.pick(&[1, 1, 1, 2, 3]) {
        let at = random.below(bytes.len() + 1);
        let command = if sequence.commands.is_empty() { 0 } else { random.pick(&sequence.commands) };
        match random.below(13) {
            0 => bytes.truncate(at),
            1 => bytes.insert(at, random.below(COMMANDS + 1) as u8),
            2 => bytes.extend((0..=random.below(3)).map(|i| [0, 1, NONE][i])),
            3 => drop(bytes.get(at).is_some().then(|| bytes.remove(at))),
            4 => set(&mut bytes, at, |_| random.below(256) as u8),
            5 => set(&mut bytes, at, |_| random.below(COMMANDS + 1) as u8),
            6 => set(&mut bytes, command + 1, |x| x.wrapping_add(1)),
            7 => set(&mut bytes, command + 1, |x| x.wrapping_sub(1)),
            8 => set(&mut bytes, command + 1, |_| random.pick(&EDGES)),
            9 => damage_litres(random, &mut bytes, &sequence.commands),
            _ => set(&mut bytes, command, |x| random.pick(alike(x))),
        }
    }
    bytes
}

/// Changes a bit of the litres of a command that has any, mostly to such as row 18 turns down.
fn damage_litres(random: &mut Random, bytes: &mut [u8], commands: &[usize]) {
    let such: Vec<usize> = commands.iter().copied().filter(|&at| bytes.get(at) == Some(&0x0C)).collect();
    if !such.is_empty() {
        let (at, bit) = (random.pick(&such) + 2 + random.below(4), random.below(8));
        set(bytes, at, |byte| byte ^ 1 << bit);
    }
}

fn set(bytes: &mut [u8], at: usize, change: impl FnOnce(u8) -> u8) {
    if let Some(byte) = bytes.get_mut(at) {
        *byte = change(*byte);
    }
}
