//! The instants of document 01 by labels, with the suspend of 02, item 1: a waiting machine reacts with its expansion.
//! The rules of a signal are tried in either order (02, item 4); the declarations of read-back signals (item 5) stay
//! around the expansion. Reactions (item 6) are counted as they happen, and deliveries (item 12) are listed one by one. It
//! shares nothing with rewriting.rs but the terms and the names of the orders.
use crate::statement::{Declaration, Order, Statement, Term};
use common::reference::Labels;
use std::mem::take;
use std::rc::Rc;

/// 002, figure 5: the expansion of a statement with an active pause. None if it has none. What a suspend becomes chooses, in
/// the instant, between waiting again at its active pauses and the expansion of its body.
pub fn expand(term: &Term, labels: Labels) -> Option<Term> {
    let expanded = match &**term {
        Statement::Pause(l) if labels >> l & 1 == 1 => Statement::Nothing,
        Statement::Seq(p, q) => match (expand(p, labels), expand(q, labels)) {
            (Some(p), None) => Statement::Seq(p, q.clone()),
            (None, second) => return second,
            (Some(_), Some(_)) => panic!("both parts of a sequence are active"),
        },
        Statement::Present(_, p, q) => match (expand(p, labels), expand(q, labels)) {
            (first, None) => return first,
            (None, second) => return second,
            (Some(_), Some(_)) => panic!("both branches of a present are active"),
        },
        Statement::Par(p, q) => match (expand(p, labels), expand(q, labels)) {
            (None, None) => return None,
            (p, q) => Statement::Par(p.unwrap_or_else(nothing), q.unwrap_or_else(nothing)),
        },
        Statement::Loop(_, p) => Statement::Seq(expand(p, labels)?, term.clone()),
        Statement::Signal(declaration, p) => Statement::Signal(*declaration, expand(p, labels)?),
        Statement::Try(p) => Statement::Try(expand(p, labels)?),
        Statement::Suspend(s, p) => {
            let body = expand(p, labels)?;
            Statement::Kept(*s, labels & pauses(p), body)
        }
        _ => return None,
    };
    Some(Rc::new(expanded))
}

/// The labels of the pauses in a statement.
fn pauses(term: &Term) -> Labels {
    match &**term {
        Statement::Pause(l) => 1 << l,
        Statement::Seq(p, q) | Statement::Par(p, q) | Statement::Present(_, p, q) => pauses(p) | pauses(q),
        Statement::Loop(_, p) | Statement::Signal(_, p) | Statement::Try(p) | Statement::Suspend(_, p) => pauses(p),
        _ => 0,
    }
}

fn nothing() -> Term {
    Rc::new(Statement::Nothing)
}

/// 003: the code that is greater than all.
pub const WRONG: u32 = u32::MAX;

#[derive(Default)]
pub struct Answer {
    pub emitted: u32,
    pub code: u32,
    pub labels: Labels,
    /// Farm and litres of each emission in the run that is chosen, but those of local signals.
    pub deliveries: Vec<(u8, u32)>,
}

/// Kind and place.
pub type Error = (u8, usize);

/// The five cases of a signal, in printed order.
pub const CASES: [&str; 5] = ["++", "--", "+-", "-+", "inherited"];

/// What happened anywhere in the tree of reactions of one instant.
#[derive(Default)]
pub struct Tree {
    pub order: Order,
    /// First part before second, run without the signal before run with it, a command after its parts.
    pub errors: Vec<Error>,
    /// One for each reaction: of a command of the sequence, of one that the expansion made, of a read-back declaration.
    pub reactions: u64,
    /// Uses of each case.
    pub cases: [u64; 5],
    /// Signals that both runs emit while a run is wrong, so that two printed rules fit: the run without the signal
    /// alone, the run with it alone, both.
    pub two_fit: [u64; 3],
    /// Parallels that lost the labels of a side.
    pub lost: u64,
    /// Parallels with an error and an emission.
    pub emitted_beside: u64,
    /// The places of loops that began.
    pub begun: Vec<usize>,
    /// Suspends that began though their signal was present.
    pub begun_present: u64,
    /// Suspends that were stopped.
    pub stopped: u64,
    /// Signals in whose two runs not the same number of suspends was stopped.
    pub stopped_once: u64,
    /// Interface and read-back signals that a test found present, and those that stopped a suspend.
    pub found: u32,
    pub stopping: u32,
    /// Signal commands that hide a read-back signal and are emitted.
    pub hiding: u64,
    /// The signals that tests and kept suspends asked for, but those declared around the question.
    pub asked: u32,
    /// Signals for which the run without them did not ask, so that the run with them is the same: all, those whose runs are
    /// wrong, those that both runs emit, read-back ones, those whose runs stop a suspend.
    pub unasked: [u64; 5],
    /// Signals whose run with them asks for another one, for which the run without them does not ask.
    pub asked_with: u64,
    /// Emissions with litres in both runs of all signals, those of a local signal that were dropped, and signals whose
    /// runs deliver otherwise.
    pub delivered: u64,
    pub dropped: u64,
    pub other_litres: u64,
    /// The signals that commands around the reaction declare, and those that the read-back set does.
    pub declared: u32,
    pub read_back: u32,
}

fn joined(mut first: Vec<(u8, u32)>, second: Vec<(u8, u32)>) -> Vec<(u8, u32)> {
    first.extend(second);
    first
}

fn caught(body: Answer) -> Answer {
    let code = match body.code {
        0 | 1 | WRONG => body.code,
        2 => 0,
        greater => greater - 1,
    };
    Answer { code, ..body }
}

impl Tree {
    /// 01, 'One reaction'.
    pub fn react(&mut self, term: &Term, present: u32) -> Answer {
        self.reactions += 1;
        let quiet = Answer::default();
        match &**term {
            Statement::Nothing => quiet,
            Statement::Pause(l) | Statement::Setpause(l) => Answer { code: 1, labels: 1 << l, ..quiet },
            Statement::Emit(s, 0) => Answer { emitted: 1 << s, ..quiet },
            Statement::Emit(s, litres) => {
                self.delivered += 1;
                Answer { emitted: 1 << s, deliveries: vec![(*s, *litres)], ..quiet }
            }
            Statement::Exit(n) => Answer { code: *n as u32 + 1, ..quiet },
            Statement::Seq(p, q) => self.sequence(p, q, present),
            Statement::Par(p, q) => self.parallel(p, q, present),
            Statement::Loop(place, p) => {
                self.begun.push(*place);
                match self.react(p, present) {
                    Answer { code: 0, .. } => self.wrong(1, *place),
                    body => body,
                }
            }
            Statement::Present(s, p, q) => {
                self.asked |= 1 << s;
                let here = present & 1 << s;
                self.found |= here & !self.declared;
                self.react(if here != 0 { p } else { q }, present)
            }
            Statement::Signal(declaration, p) => self.signal(*declaration, p, present),
            Statement::Try(p) => caught(self.react(p, present)),
            Statement::Suspend(s, p) => {
                self.begun_present += (present >> s & 1) as u64;
                self.react(p, present)
            }
            Statement::Kept(s, labels, p) => {
                self.asked |= 1 << s;
                if present & 1 << s == 0 {
                    return self.react(p, present);
                }
                self.stopped += 1;
                self.stopping |= 1 << s & !self.declared;
                Answer { code: 1, labels: *labels, ..quiet }
            }
            Statement::Held(..) => unreachable!("the paper's"),
        }
    }

    fn sequence(&mut self, p: &Term, q: &Term, present: u32) -> Answer {
        let first = self.react(p, present);
        if first.code != 0 {
            return first;
        }
        let second = self.react(q, present);
        let deliveries = joined(first.deliveries, second.deliveries);
        Answer { emitted: first.emitted | second.emitted, deliveries, ..second }
    }

    fn wrong(&mut self, kind: u8, place: usize) -> Answer {
        self.errors.push((kind, place));
        Answer { code: WRONG, ..Answer::default() }
    }

    fn parallel(&mut self, p: &Term, q: &Term, present: u32) -> Answer {
        let (p, q) = (self.react(p, present), self.react(q, present));
        let code = p.code.max(q.code);
        let labels = p.labels | q.labels;
        self.lost += (code > 1 && labels != 0) as u64;
        self.emitted_beside += (code == WRONG && p.emitted | q.emitted != 0) as u64;
        let (emitted, deliveries) = (p.emitted | q.emitted, joined(p.deliveries, q.deliveries));
        Answer { emitted, code, labels: if code == 1 { labels } else { 0 }, deliveries }
    }

    /// The runs without the signal and with it, and what they asked for.
    fn runs(&mut self, Declaration { signal, reported, .. }: Declaration, p: &Term, present: u32) -> [Answer; 2] {
        let only = 1u32 << signal;
        let (before, around, outside) = (self.stopped, self.declared, take(&mut self.asked));
        match reported {
            true => self.read_back |= only,
            false => self.declared |= only,
        }
        let minus = self.react(p, present - (present & only));
        let (between, asked) = (self.stopped, take(&mut self.asked));
        let plus = self.react(p, present | only);
        self.stopped_once += (between - before != self.stopped - between) as u64;
        self.declared = around;
        self.asked_with += (self.asked & !asked & !only != 0) as u64;
        let kinds = [true, minus.code == WRONG, minus.emitted & only != 0, reported, between > before];
        (0..kinds.len()).for_each(|i| self.unasked[i] += (kinds[i] && asked & only == 0) as u64);
        self.asked = outside | (asked | self.asked) & !only;
        [minus, plus]
    }

    fn signal(&mut self, declaration: Declaration, p: &Term, present: u32) -> Answer {
        let Declaration { place, signal, reported } = declaration;
        let only = 1u32 << signal;
        let [minus, plus] = self.runs(declaration, p, present);
        let (in_minus, in_plus) = (minus.emitted & only != 0, plus.emitted & only != 0);
        let (minus_wrong, plus_wrong) = (minus.code == WRONG, plus.code == WRONG);
        let fits = [
            in_minus && in_plus,
            !in_minus && !in_plus && !minus_wrong && !plus_wrong,
            in_minus && !in_plus && !plus_wrong,
            in_plus && !in_minus && !minus_wrong,
            minus_wrong || plus_wrong,
        ];
        let tried = match self.order {
            Order::Printed => [0, 1, 2, 3, 4],
            Order::InheritanceFirst => [4, 0, 1, 2, 3],
        };
        let case = tried.into_iter().find(|&case| fits[case]).expect("one of the five fits");
        self.cases[case] += 1;
        self.other_litres += (minus.deliveries != plus.deliveries) as u64;
        self.hiding += (case == 0 && !reported && self.read_back & only != 0) as u64;
        if fits[0] && fits[4] {
            self.two_fit[minus_wrong as usize + 2 * plus_wrong as usize - 1] += 1;
        }
        match case {
            0 if reported => plus,
            0 => {
                let (own, kept): (Vec<_>, Vec<_>) = plus.deliveries.iter().partition(|delivery| delivery.0 == signal);
                self.dropped += own.len() as u64;
                Answer { emitted: plus.emitted - only, deliveries: kept, ..plus }
            }
            1 => minus,
            2 | 3 => self.wrong(case as u8, place),
            _ => Answer { code: WRONG, ..Answer::default() },
        }
    }
}
