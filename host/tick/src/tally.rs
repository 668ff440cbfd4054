//! The comparisons, and what they reached.
use crate::archive::{self, Call};
use crate::ceiling::Ceiling;
use crate::expansion::CASES;
use crate::kernel::Kernel;
use crate::readback::ReadBack;
use crate::reference::{tick, Instant, Sequence};
use crate::rewriting::{Litres, Paper, Seen};
use crate::statement::Order;
use common::counts::Counts;
use common::reference::MOST_LITRES;
use common::table::hex;

/// What a tick answers.
pub const NUMBERS: [usize; 14] = [0, 1, 2, 3, 4, 5, 6, 7, 8, 9, 10, 11, 12, 18];
const GREATEST: usize = 18;

/// Names of what a tree of reactions may hold, beside the cases of a signal.
const EVENTS: [&str; 28] = [
    "resumed",
    "the same, labels on both sides of 64",
    "waits at labels on both sides of 64",
    "suspend stopped, such labels",
    "wrong when resumed",
    "wrong with errors that differ",
    "two signal rules fit, wrong without",
    "two signal rules fit, wrong with",
    "two signal rules fit, wrong in both",
    "labels lost in a parallel",
    "emitted beside an error",
    "one loop begun three times in one run",
    "over a thousand reactions",
    "suspend begun with its signal",
    "suspend stopped",
    "suspend stopped, code not 1",
    "suspend stopped, other labels change",
    "suspend stopped in one of two runs",
    "as many reactions as the ceiling",
    "the same, resumed in a loop",
    "without loops, as many as can be",
    "the same, inside signals",
    "signal not asked for without it",
    "the same, wrong",
    "the same, emitted",
    "the same, read back",
    "the same, a suspend stopped",
    "asked for in the run with a signal alone",
];

/// What is counted of the litres of an instant.
const LITRES: [&str; 8] = [
    "delivers litres",
    "the same, resumed",
    "the same, of two farms",
    "the same, twice of one farm",
    "litres above the limit in one instant",
    "litres of a local signal dropped",
    "other litres in the run not chosen",
    "wrong beside an emission with litres",
];

/// What is counted of the ticks that are compared with the paper.
const PAPERS: [&str; 7] = [
    "compared with the paper",
    "the same, wrong when resumed",
    "the same, wrong with errors that differ",
    "the same, two signal rules fit",
    "the same, with a read-back set",
    "the same, with a set, turned down",
    "the same, with a set, wrong at 65535",
];

/// What is counted of the ticks that are compared with the kernel form.
const KERNELS: [&str; 6] = [
    "compared with the kernel form",
    "the same, stopped",
    "the same, stopped inside two suspends",
    "the same, stopped, with setpauses",
    "the same, wrong",
    "the kernel form is too long or too deep",
];

#[derive(Default)]
pub struct Tally {
    pub counts: Counts,
    /// How often each number was the answer, in the group that runs and in all.
    numbers: [u64; GREATEST + 1],
    all_numbers: [u64; GREATEST + 1],
    /// Codes 0 to 16, and wrong.
    codes: [u64; 18],
    kinds: [u64; 4],
    cases: [u64; CASES.len()],
    events: [u64; EVENTS.len()],
    litres: [u64; LITRES.len()],
    papers: [u64; PAPERS.len()],
    kernels: [u64; KERNELS.len()],
    read_back: ReadBack,
    most_reactions: u64,
    fill: u8,
}

impl Tally {
    /// Compares one tick of the archive with the expansion, with the paper where there is one, with the tick of the
    /// kernel form where there is one, and with other calls where there is a read-back set: number, both records and the
    /// guards. Holds the reactions to the ceiling. Gives the number and the state that the archive left.
    pub fn compare(
        &mut self,
        sequence: &Sequence,
        state: &[u8],
        input: u32,
        answer_length: usize,
        paper: Option<&mut Paper>,
    ) -> (u8, Vec<u8>) {
        self.fill = !self.fill;
        let fill = self.fill;
        let call = Call { state, input, answer_length, fill };
        let expected = tick(sequence, state, input, answer_length);
        let outcome = archive::tick(sequence.program(), call);
        let (number, after, answer) = match &expected {
            Ok(instant) => (0, instant.state.clone(), instant.answer.clone()),
            Err(number) => (*number, state.to_vec(), vec![fill; answer_length]),
        };
        self.numbers[number as usize] += 1;
        if let (Ok(instant), Ok(read)) = (&expected, &sequence.read) {
            self.count(state, instant, read.ceiling);
            self.count_litres(state, instant);
            let taken = instant.tree.reactions;
            let within = read.ceiling.allows(state[0] == 0, taken);
            self.counts.expect(within, || format!("{taken} reactions: {} | {}", sequence.text(), hex(state)));
        }
        let holds = outcome.number == number && outcome.state.as_ref() == Some(&after);
        let holds = holds && outcome.answer.as_ref() == Some(&answer);
        let told = || {
            let call = format!("{} | {} | {answer_length} | {input:08X}", sequence.text(), hex(state));
            format!("{call}: {}, not {number}: {} | {}", outcome.text(), hex(&after), hex(&answer))
        };
        self.counts.expect(holds, told);
        if let Some(paper) = paper {
            self.count_paper(sequence, state, expected.as_ref().ok());
            let litres = expected.as_ref().map_or(Litres::new(), Instant::litres);
            self.compare_paper(paper, input, &outcome, litres, answer_length, told);
        }
        if let Some(kernel) = &sequence.kernel {
            self.count_kernel(sequence, kernel, expected.as_ref().ok());
            self.compare_kernel(kernel, sequence.read_back, call, &outcome, told);
        }
        if sequence.read_back != 0 {
            self.read_back.compare(&mut self.counts, sequence, call, &expected, &outcome);
        }
        (outcome.number, outcome.state.unwrap_or(after))
    }

    /// 01, 'The fitters' paper', and 02, items 3 and 6: number, code, kind, place, emitted set, number of reactions and,
    /// after each tick, the phase. The litres (item 12), which a tick does not tell, are compared with the expansion's.
    fn compare_paper(
        &mut self,
        paper: &mut Paper,
        input: u32,
        outcome: &archive::Outcome,
        by_expansion: Litres,
        answer_length: usize,
        told: impl Fn() -> String,
    ) {
        let (seen, litres) = paper.tick(Order::InheritanceFirst, input, answer_length);
        let shown = match outcome.number {
            0 => outcome.answer.as_deref().and_then(Seen::of),
            number => Some(Seen::TurnedDown(number)),
        };
        let phase = outcome.state.as_ref().and_then(|state| state.first().copied());
        let holds = shown.as_ref() == Some(&seen) && phase == Some(paper.phase());
        self.counts.expect(holds, || format!("paper {seen:?}, phase {}: {}", paper.phase(), told()));
        let same = litres == by_expansion;
        self.counts.expect(same, || format!("paper {litres:?}, expansion {by_expansion:?}: {}", told()));
    }

    fn count_paper(&mut self, sequence: &Sequence, state: &[u8], instant: Option<&Instant>) {
        let wrong = instant.map_or([false; 3], |instant| wrong_kinds(state, instant));
        let outside = instant.is_some_and(|instant| instant.answer[2..4] == [0xFF, 0xFF]);
        let set = sequence.read_back != 0;
        let kinds = [true].into_iter().chain(wrong).chain([set, set && instant.is_none(), set && outside]);
        kinds.enumerate().for_each(|(i, kind)| self.papers[i] += kind as u64);
    }

    /// 02, item 1, in the kernel: number and both records, the answer's place being that of the same command, and its
    /// reactions the kernel form's own.
    fn compare_kernel(
        &mut self,
        kernel: &Kernel,
        read_back: u32,
        call: Call,
        outcome: &archive::Outcome,
        told: impl Fn() -> String,
    ) {
        let own = archive::tick((&kernel.bytes, read_back), call);
        let holds = match &kernel.read {
            Ok(_) => {
                let accepted = outcome.number == 0;
                let moved = |answer: &Vec<u8>| if accepted { kernel.moved(answer, call) } else { answer.clone() };
                own.number == outcome.number
                    && own.state.is_some()
                    && own.state == outcome.state
                    && own.answer.is_some()
                    && own.answer == outcome.answer.as_ref().map(moved)
            }
            Err(number) => matches!(number, 2 | 6) && own.number == if outcome.number == 1 { 1 } else { *number },
        };
        self.counts.expect(holds, || format!("kernel {}: {}: {}", hex(&kernel.bytes), own.text(), told()));
    }

    fn count_kernel(&mut self, sequence: &Sequence, kernel: &Kernel, instant: Option<&Instant>) {
        let within = kernel.read.is_ok();
        let stopped = within && instant.is_some_and(|instant| instant.tree.stopped > 0);
        let kinds = [
            within,
            stopped,
            stopped && kernel.nested > 1,
            stopped && sequence.setpauses() > 0,
            within && instant.is_some_and(|instant| instant.answer[0] == 255),
            !within,
        ];
        (0..KERNELS.len()).for_each(|i| self.kernels[i] += kinds[i] as u64);
    }

    fn count(&mut self, state: &[u8], instant: &Instant, ceiling: Ceiling) {
        let (code, tree) = (instant.answer[0], &instant.tree);
        let reached = tree.reactions == ceiling.most();
        let most_without_loops = ceiling.loops == 0 && tree.reactions == ceiling.without_loops();
        self.codes[if code == 255 { 17 } else { code as usize }] += 1;
        self.kinds[instant.answer[1] as usize] += (code == 255) as u64;
        (0..CASES.len()).for_each(|i| self.cases[i] += tree.cases[i]);
        let [resumed, differ, _] = wrong_kinds(state, instant);
        let events = [
            state[0] == 1,
            state[0] == 1 && both_sides(state),
            both_sides(&instant.state),
            tree.stopped > 0 && both_sides(&instant.state),
            resumed,
            differ,
            tree.two_fit[0] > 0,
            tree.two_fit[1] > 0,
            tree.two_fit[2] > 0,
            tree.lost > 0,
            tree.emitted_beside > 0,
            tree.cases == [0; CASES.len()] && begun_thrice(&tree.begun),
            tree.reactions > 1000,
            tree.begun_present > 0,
            tree.stopped > 0,
            tree.stopped > 0 && code != 1,
            tree.stopped > 0 && code == 1 && state[1..] != instant.state[1..],
            tree.stopped_once > 0,
            reached,
            reached && state[0] == 1 && ceiling.loops > 0,
            most_without_loops,
            most_without_loops && ceiling.signals > 0,
            tree.unasked[0] > 0,
            tree.unasked[1] > 0,
            tree.unasked[2] > 0,
            tree.unasked[3] > 0,
            tree.unasked[4] > 0,
            tree.asked_with > 0,
        ];
        (0..EVENTS.len()).for_each(|i| self.events[i] += events[i] as u64);
        self.most_reactions = self.most_reactions.max(tree.reactions);
    }

    fn count_litres(&mut self, state: &[u8], instant: &Instant) {
        let (wrong, tree, litres) = (instant.answer[0] == 255, &instant.tree, instant.litres());
        let delivers = !litres.is_empty();
        let kinds = [
            delivers,
            delivers && state[0] == 1,
            litres.len() > 1,
            delivers && instant.deliveries.len() > litres.len(),
            litres.values().any(|sum| *sum > MOST_LITRES),
            tree.dropped > 0,
            tree.other_litres > 0 && !wrong,
            tree.delivered > 0 && wrong,
        ];
        (0..LITRES.len()).for_each(|i| self.litres[i] += kinds[i] as u64);
    }

    /// Prints what the group `name` answered and begins the next one.
    pub fn close(&mut self, name: &str) {
        let numbers: String = NUMBERS.iter().map(|n| format!("{:>8}", self.numbers[*n])).collect();
        println!("{name:<16}{numbers}{:>8}", self.counts.close());
        (0..=GREATEST).for_each(|n| self.all_numbers[n] += self.numbers[n]);
        self.numbers = [0; GREATEST + 1];
    }

    /// Prints what was reached; a test that does not get there would show nothing.
    pub fn reached(&mut self) {
        let codes = (0..=17).map(|i| (format!("code {}", if i == 17 { 255 } else { i }), self.codes[i]));
        let kinds = (1..=3).map(|kind| (format!("kind {kind}"), self.kinds[kind]));
        let numbers = NUMBERS.iter().map(|n| (format!("number {n}"), self.all_numbers[*n]));
        let cases = (0..CASES.len()).map(|i| (format!("signal {}", CASES[i]), self.cases[i]));
        let events = (0..EVENTS.len()).map(|i| (EVENTS[i].to_string(), self.events[i]));
        let litres = (0..LITRES.len()).map(|i| (LITRES[i].to_string(), self.litres[i]));
        let papers = (0..PAPERS.len()).map(|i| (PAPERS[i].to_string(), self.papers[i]));
        let kernels = (0..KERNELS.len()).map(|i| (KERNELS[i].to_string(), self.kernels[i]));
        let answers = numbers.chain(codes).chain(kinds);
        let all: Vec<_> = answers.chain(cases).chain(events).chain(litres).chain(papers).chain(kernels).collect();
        for (name, count) in all {
            println!("{name:<40}{count:>10}");
            self.counts.expect(count >= 100, || format!("{name} occurred only {count} times"));
        }
        self.read_back.reached(&mut self.counts);
        println!("{:<40}{:>10}", "most reactions in one instant", self.most_reactions);
    }
}

/// Is it a wrong instant of a waiting machine, one with errors that differ, one with a signal for which two rules fit?
fn wrong_kinds(state: &[u8], instant: &Instant) -> [bool; 3] {
    let errors = &instant.tree.errors;
    let differ = errors.iter().any(|error| error != &errors[0]);
    [state[0] == 1, differ, instant.tree.two_fit != [0; 3]].map(|kind| kind && instant.answer[0] == 255)
}

/// Does a state record hold a label below 64 and one from 64 on?
fn both_sides(state: &[u8]) -> bool {
    let (low, high) = state[1..].split_at(64 / 8);
    [low, high].iter().all(|half| half.iter().any(|byte| *byte != 0))
}

fn begun_thrice(places: &[usize]) -> bool {
    places.len() > 2 && places.iter().any(|place| places.iter().filter(|other| *other == place).count() > 2)
}
