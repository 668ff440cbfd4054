//! The check as document 01 words it, with the suspend, the read-back set, the labels and the litres of 02, items 1, 5, 7
//! and 12, on an explicit tree. It shares no idea with the archive: commands are read in a loop and not by recursion, the
//! nesting of signals is found on the tree when all of it is there, the rows on labels look at all pairs of places and not
//! at sets, and litres are worked out as a fraction of integers.
use std::ops::RangeInclusive;

pub const PAUSE: u8 = 0x01;
const SEQUENCE: u8 = 0x04;
pub const LOOP: u8 = 0x06;
const PRESENT: u8 = 0x07;
pub const SIGNAL: u8 = 0x08;
const SETPAUSE: u8 = 0x0A;
pub const SUSPEND: u8 = 0x0B;
pub const DELIVER: u8 = 0x0C;

/// The most litres of a command, and of a farm in a year (02, item 12).
pub const MOST_LITRES: u64 = 16_777_216;

/// Labels are below it (02, item 7).
pub const LABELS: usize = 128;

/// A set of labels, label 0 in the lowest bit.
pub type Labels = u128;

/// The length of a state record: the phase and a bit for each label.
pub const STATE_LENGTH: usize = 1 + LABELS / 8;

pub struct Command {
    /// Its offset in the sequence.
    pub at: usize,
    pub byte: u8,
    pub operand: u8,
    /// Of an emission by 0C; none of any other command.
    pub litres: u32,
    /// The commands around this one from the outermost inwards, by their index, each with the part that holds this one.
    pub place: Vec<(usize, u8)>,
}

/// The commands of a statement in prefix order.
pub struct Tree(pub Vec<Command>);

/// 01, 'Commands', and 02, items 1 and 12: the range of the first operand, if there is one, and the number of parts.
fn shape(byte: u8) -> Option<(Option<RangeInclusive<u8>>, u8)> {
    match byte {
        0x00 => Some((None, 0)),
        PAUSE | SETPAUSE => Some((Some(0..=LABELS as u8 - 1), 0)),
        0x02 | DELIVER => Some((Some(0..=31), 0)),
        0x03 => Some((Some(1..=15), 0)),
        SEQUENCE | 0x05 => Some((None, 2)),
        LOOP | 0x09 => Some((None, 1)),
        PRESENT => Some((Some(0..=31), 2)),
        SIGNAL | SUSPEND => Some((Some(0..=31), 1)),
        _ => None,
    }
}

/// The litres of a single-precision number: the exact value of its 32 bits, or None for row 18. That value is
/// `digits` * 2^`power`, without its sign.
pub fn litres(bits: u32) -> Option<u32> {
    let (minus, exponent, fraction) = (bits >= 1 << 31, bits / (1 << 23) % 256, u128::from(bits % (1 << 23)));
    let (digits, power) = match exponent {
        255 => return None, // an infinity, or no number
        0 => (fraction, -149),
        _ => (fraction + (1 << 23), exponent as i32 - 150),
    };
    let value = match (digits, power) {
        (0, _) => 0,
        (_, 0..) => digits << power, // below 2^128, the greatest power being 104
        (_, -23..=-1) if digits % (1 << -power) == 0 => digits >> -power,
        _ => return None, // digits are below 2^24, and 2^24 divides none but 0
    };
    (!minus && value <= u128::from(MOST_LITRES)).then_some(value as u32)
}

/// The first operand of a command, its litres, and the count of their bytes, which are the first of these; or row 4, 5 or 18.
fn operands(byte: u8, range: Option<RangeInclusive<u8>>, bytes: &[u8]) -> Result<(u8, u32, usize), u8> {
    let Some(range) = range else { return Ok((0, 0, 0)) };
    let own = bytes.get(..if byte == DELIVER { 5 } else { 1 }).ok_or(4)?;
    if !range.contains(&own[0]) {
        return Err(5);
    }
    let carried = match *own {
        [_, a, b, c, d] => litres(u32::from_le_bytes([a, b, c, d])).ok_or(18)?,
        _ => 0,
    };
    Ok((own[0], carried, own.len()))
}

/// The statement at the front of the bytes and the count of its bytes, or row 3, 4, 5, 18 or 6, command by command from the
/// left.
fn read(bytes: &[u8]) -> Result<(Tree, usize), u8> {
    let mut tree = Tree(Vec::new());
    let mut at = 0;
    let mut missing = vec![Vec::new()]; // the places of statements yet to be read, the next one last
    while let Some(place) = missing.pop() {
        let start = at;
        let byte = *bytes.get(at).ok_or(4)?;
        let (range, parts) = shape(byte).ok_or(3)?;
        at += 1;
        let (operand, litres, count) = operands(byte, range, &bytes[at..])?;
        at += count;
        if place.len() + 1 > 64 || byte == SIGNAL && tree.around(&place, SIGNAL) + 1 > 6 {
            return Err(6);
        }
        for part in (0..parts).rev() {
            missing.push([&place[..], &[(tree.0.len(), part)]].concat());
        }
        tree.0.push(Command { at: start, byte, operand, litres, place });
    }
    Ok((tree, at))
}

impl Tree {
    /// The number of commands with this byte around a place.
    fn around(&self, place: &[(usize, u8)], byte: u8) -> usize {
        place.iter().filter(|around| self.0[around.0].byte == byte).count()
    }

    /// The greatest number of commands with this byte around a command.
    pub fn most_around(&self, byte: u8) -> usize {
        self.0.iter().map(|command| self.around(&command.place, byte)).max().unwrap_or(0)
    }

    /// The greatest number of signal commands around a command.
    pub fn nesting(&self) -> usize {
        self.most_around(SIGNAL)
    }

    pub fn pauses(&self) -> Vec<&Command> {
        self.0.iter().filter(|c| c.byte == PAUSE).collect()
    }

    pub fn setpauses(&self) -> Vec<&Command> {
        self.0.iter().filter(|c| c.byte == SETPAUSE).collect()
    }

    /// 01, 'States and resuming': the smallest command holding both is a sequence or a present, in different parts.
    pub fn exclusive(&self, a: &Command, b: &Command) -> bool {
        // Two places part at the smallest command that holds both, unless one holds the other.
        let smallest = a.place.iter().zip(&b.place).find(|(x, y)| x != y).map(|(x, _)| &self.0[x.0]);
        smallest.is_some_and(|c| c.byte == SEQUENCE || c.byte == PRESENT)
    }

    /// 01, 'States and resuming': not empty, each label has a pause, and those pauses are pairwise compatible.
    pub fn valid(&self, labels: Labels) -> bool {
        let named = |pause: &&Command| labels >> pause.operand & 1 == 1;
        let active: Vec<&Command> = self.pauses().into_iter().filter(named).collect();
        labels != 0
            && active.len() == labels.count_ones() as usize
            && active.iter().all(|a| active.iter().all(|b| !self.exclusive(a, b)))
    }

    fn well_formed(&self) -> bool {
        let setpauses = self.setpauses();
        let of = |k: &Command| setpauses.iter().filter(|s| s.operand == k.operand).collect();
        let labels: Vec<(_, Vec<_>)> = self.pauses().into_iter().map(|k| (k, of(k))).collect();
        labels.iter().all(|(k, setpauses_k)| {
            labels.iter().filter(|(l, _)| self.exclusive(k, l)).all(|(l, setpauses_l)| {
                setpauses_k.iter().all(|x| setpauses_l.iter().all(|y| self.exclusive(x, y)))
                    && setpauses_k.iter().all(|x| self.exclusive(x, l))
                    && setpauses_l.iter().all(|y| self.exclusive(k, y))
            })
        })
    }
}

/// 01, 'Turned down', rows 2 to 10, with 02, items 5 and 12: the tree of a sequence that is accepted with these read-back
/// signals, or the number. The tree has no commands for them: they are declared around it and count to nothing but row 6.
pub fn check(bytes: &[u8], read_back: u32) -> Result<Tree, u8> {
    if bytes.is_empty() || bytes.len() > 1024 {
        return Err(2);
    }
    let (tree, count) = read(bytes)?;
    let (pauses, setpauses) = (tree.pauses(), tree.setpauses());
    if read_back.count_ones() as usize + tree.nesting() > 6 {
        Err(6)
    } else if count < bytes.len() {
        Err(7)
    } else if pauses.iter().enumerate().any(|(i, p)| pauses[..i].iter().any(|q| p.operand == q.operand)) {
        Err(8)
    } else if setpauses.iter().any(|s| pauses.iter().all(|p| p.operand != s.operand)) {
        Err(9)
    } else if !tree.well_formed() {
        Err(10)
    } else {
        Ok(tree)
    }
}
