//! What is shown of an instant whose inputs are not all known (02, item 11).

/// Two sets of signals, whether some filling is wrong, and the code.
pub const PREVIEW_LENGTH: usize = 4 + 4 + 1 + 1;

/// How many inputs may be unknown.
pub const UNKNOWN: usize = 6;

const WRONG: u8 = 255;
const OPEN: u8 = 254;

/// Every set of inputs that has these unknown ones with any status, and the others as they are given.
fn fillings(input: u32, unknown: u32) -> Vec<u32> {
    (0..32).filter(|s| unknown >> s & 1 == 1).fold(vec![input], |fillings, s| {
        fillings.iter().flat_map(|filling| [filling & !(1 << s), filling | 1 << s]).collect()
    })
}

/// The preview by the answer record of each filling. The first number that an instant gives comes before 17.
pub fn preview(input: u32, unknown: u32, instant: impl Fn(u32) -> Result<Vec<u8>, u8>) -> Result<Vec<u8>, u8> {
    instant(input)?;
    if unknown.count_ones() as usize > UNKNOWN {
        return Err(17);
    }
    let answers = fillings(input, unknown).into_iter().map(instant).collect::<Result<Vec<Vec<u8>>, u8>>()?;
    let emits = |answer: &Vec<u8>, s: usize| answer[4 + s / 8] >> (s % 8) & 1 == 1;
    let set = |holds: &dyn Fn(usize) -> bool| {
        (0..32).filter(|&s| holds(s)).fold(0, |set: u32, s| set | 1 << s).to_le_bytes().to_vec()
    };
    let always = set(&|s| answers.iter().all(|answer| emits(answer, s)));
    let never = set(&|s| !answers.iter().any(|answer| emits(answer, s)));
    let wrong = answers.iter().any(|answer| answer[0] == WRONG) as u8;
    let shared = answers.iter().all(|answer| answer[0] == answers[0][0]);
    Ok([always, never, vec![wrong, if shared { answers[0][0] } else { OPEN }]].concat())
}

/// How many previews said what.
#[derive(Default, Debug)]
pub struct Previews {
    /// Some filling is wrong, and some is not.
    some_wrong: u64,
    all_wrong: u64,
    /// No filling is wrong, and they do not share a code.
    open: u64,
    /// Some signal is in neither set.
    undecided: u64,
    always: u64,
}

impl Previews {
    pub fn add(&mut self, preview: &[u8]) {
        let (wrong, code) = (preview[8] == 1, preview[9]);
        self.some_wrong += (wrong && code != WRONG) as u64;
        self.all_wrong += (wrong && code == WRONG) as u64;
        self.open += (!wrong && code == OPEN) as u64;
        self.undecided += preview[..4].iter().zip(&preview[4..8]).any(|(always, never)| always ^ never != 0xFF) as u64;
        self.always += preview[..4].iter().any(|&set| set != 0) as u64;
    }

    /// Whether each kind was met.
    pub fn all(&self) -> bool {
        [self.some_wrong, self.all_wrong, self.open, self.undecided, self.always].iter().all(|&count| count > 100)
    }
}
