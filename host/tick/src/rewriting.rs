//! The fitters' paper of document 01, with the suspend of 02, item 1: a machine that holds a term and rewrites it, by
//! either order of the signal rules (02, item 4), inside the declarations of its read-back signals (item 5). It knows no
//! labels or states, and shares nothing with expansion.rs but the terms and the names of the orders. The first error (02,
//! item 3) is found in the term that it holds, where a copy of a loop or a signal keeps the place of its command. The
//! number of reactions (item 6) is that of its derivation: one for each rule used, summed over its premises. So are the
//! litres of each farm (item 12), over the premises that the conclusion is made of.
use crate::statement::{Declaration, Order, Statement, Term};
use std::collections::BTreeMap;
use std::rc::Rc;

/// In the order of 01, so that the greater of two is their maximum.
#[derive(Clone, Copy, PartialEq, Eq, PartialOrd, Ord)]
enum Code {
    Ended,
    Waiting,
    Leaving(u8),
    Wrong,
}
use Code::*;

/// Kind and place.
type Error = (u8, usize);

/// The first error in the tree of a reaction, if there is one, and its number of reactions, both runs of each signal
/// included.
#[derive(Clone, Copy)]
struct Tree {
    first: Option<Error>,
    reactions: u64,
}

/// The litres of each farm that has any.
pub type Litres = BTreeMap<u8, u64>;

struct Reaction {
    emitted: u32,
    code: Code,
    residual: Term,
    tree: Tree,
    litres: Litres,
}

/// By a rule without premises, or as `by` is to complete it.
fn gives(emitted: u32, code: Code, residual: Statement) -> Reaction {
    let (residual, tree) = (Rc::new(residual), Tree { first: None, reactions: 1 });
    Reaction { emitted, code, residual, tree, litres: Litres::new() }
}

impl Reaction {
    /// By a rule whose premises have these trees, in this order.
    fn by<const N: usize>(self, premises: [Tree; N]) -> Reaction {
        let first = premises.iter().find_map(|tree| tree.first).or(self.tree.first);
        let reactions = 1 + premises.iter().map(|tree| tree.reactions).sum::<u64>();
        Reaction { tree: Tree { first, reactions }, ..self }
    }

    /// With these litres.
    fn of(self, litres: Litres) -> Reaction {
        Reaction { litres, ..self }
    }
}

/// The litres of two premises, farm by farm.
fn sum(p: Litres, q: Litres) -> Litres {
    q.into_iter().fold(p, |mut sum, (farm, litres)| {
        *sum.entry(farm).or_default() += litres;
        sum
    })
}

/// (loop-error), (signal+-), (signal-+)
fn errs(kind: u8, place: usize) -> Reaction {
    let wrong = gives(0, Wrong, Statement::Nothing);
    Reaction { tree: Tree { first: Some((kind, place)), ..wrong.tree }, ..wrong }
}

/// 003, figures 3 and 7, with 01's residuals.
fn react(order: Order, term: &Term, present: u32) -> Reaction {
    let react = |term: &Term, present: u32| react(order, term, present);
    match &**term {
        Statement::Nothing => gives(0, Ended, Statement::Nothing),
        Statement::Pause(_) => gives(0, Waiting, Statement::Nothing),
        Statement::Emit(s, litres) => {
            let own = (*litres > 0).then(|| (*s, u64::from(*litres)));
            gives(1 << s, Ended, Statement::Nothing).of(own.into_iter().collect())
        }
        Statement::Exit(n) => gives(0, Leaving(*n), Statement::Nothing),
        Statement::Seq(p, q) => sequence(order, react(p, present), q, present),
        Statement::Par(p, q) => parallel(react(p, present), react(q, present)),
        Statement::Loop(place, p) => repeat(*place, react(p, present), term),
        Statement::Present(s, p, q) => {
            let branch = react(if present >> s & 1 == 1 { p } else { q }, present);
            let tree = branch.tree;
            branch.by([tree])
        }
        Statement::Signal(declared, p) => {
            let bit = 1 << declared.signal;
            signal(order, *declared, react(p, present & !bit), react(p, present | bit))
        }
        Statement::Try(p) => catch(react(p, present)),
        Statement::Suspend(s, p) => hold(*s, react(p, present)),
        Statement::Held(s, _) if present >> s & 1 == 1 => {
            Reaction { residual: term.clone(), ..gives(0, Waiting, Statement::Nothing) }
        }
        Statement::Held(s, p) => hold(*s, react(p, present)),
        Statement::Setpause(_) | Statement::Kept(..) => unreachable!("the paper has no labels to set or to keep"),
    }
}

/// (sequence-p), (sequence-q)
fn sequence(order: Order, p: Reaction, q: &Term, present: u32) -> Reaction {
    if p.code != Ended {
        return gives(p.emitted, p.code, Statement::Seq(p.residual, q.clone())).of(p.litres).by([p.tree]);
    }
    let q = react(order, q, present);
    let trees = [p.tree, q.tree];
    let (emitted, litres) = (p.emitted | q.emitted, sum(p.litres, q.litres));
    Reaction { emitted, litres, ..q }.by(trees)
}

/// (parallel)
fn parallel(p: Reaction, q: Reaction) -> Reaction {
    let side = |r: Reaction| if r.code == Ended { Rc::new(Statement::Nothing) } else { r.residual };
    let trees = [p.tree, q.tree];
    let (p_litres, q_litres) = (p.litres.clone(), q.litres.clone());
    let all = gives(p.emitted | q.emitted, p.code.max(q.code), Statement::Par(side(p), side(q)));
    all.of(sum(p_litres, q_litres)).by(trees)
}

/// (loop), (loop-error)
fn repeat(place: usize, p: Reaction, whole: &Term) -> Reaction {
    let all = match p.code {
        Ended => errs(1, place),
        _ => gives(p.emitted, p.code, Statement::Seq(p.residual, whole.clone())).of(p.litres),
    };
    all.by([p.tree])
}

/// (try-catch), (try-through)
fn catch(p: Reaction) -> Reaction {
    let all = match p.code {
        Leaving(1) => gives(p.emitted, Ended, Statement::Nothing),
        Leaving(n) => gives(p.emitted, Leaving(n - 1), Statement::Try(p.residual)),
        Ended | Waiting | Wrong => gives(p.emitted, p.code, Statement::Try(p.residual)),
    };
    all.of(p.litres).by([p.tree])
}

/// 02, item 1: after code 1 a held suspend remains around the residual, after any other code nothing
fn hold(s: u8, p: Reaction) -> Reaction {
    let residual = if p.code == Waiting { Statement::Held(s, p.residual) } else { Statement::Nothing };
    gives(p.emitted, p.code, residual).of(p.litres).by([p.tree])
}

/// (signal++), (signal--), (signal+-), (signal-+), (signal∞): the first that fits, or, if so ordered, (signal∞) before
/// the other four. What is emitted of a read-back signal is not taken out, nor are its litres.
fn signal(order: Order, declared: Declaration, minus: Reaction, plus: Reaction) -> Reaction {
    let emits = |r: &Reaction| r.emitted >> declared.signal & 1 == 1;
    let kept = if declared.reported { u32::MAX } else { !(1 << declared.signal) };
    let greater = minus.code.max(plus.code);
    let all = match (emits(&minus), emits(&plus)) {
        _ if order == Order::InheritanceFirst && greater == Wrong => gives(0, Wrong, Statement::Nothing),
        (true, true) => {
            let mut litres = plus.litres;
            litres.retain(|farm, _| kept >> farm & 1 == 1);
            gives(plus.emitted & kept, plus.code, Statement::Signal(declared, plus.residual)).of(litres)
        }
        (false, false) if greater < Wrong => {
            gives(minus.emitted, minus.code, Statement::Signal(declared, minus.residual)).of(minus.litres)
        }
        (true, false) if plus.code < Wrong => errs(2, declared.place),
        (false, true) if minus.code < Wrong => errs(3, declared.place),
        _ => gives(0, Wrong, Statement::Nothing),
    };
    all.by([minus.tree, plus.tree])
}

/// What is compared of one tick: the number, then code, kind, place, emitted set and number of reactions of an instant.
#[derive(Debug, PartialEq)]
pub enum Seen {
    TurnedDown(u8),
    Instant { code: u8, kind: u8, place: usize, emitted: u32, reactions: u64 },
}

impl Seen {
    /// What an answer record shows.
    pub fn of(answer: &[u8]) -> Option<Seen> {
        let &[code, kind, low, high, a, b, c, d, e, f, g, h] = answer else { return None };
        let (place, emitted) = (u16::from_le_bytes([low, high]) as usize, u32::from_le_bytes([a, b, c, d]));
        Some(Seen::Instant { code, kind, place, emitted, reactions: u32::from_le_bytes([e, f, g, h]) as u64 })
    }
}

#[derive(Clone, PartialEq)]
pub enum Paper {
    Fresh(Term),
    Waiting(Term),
    Over,
}

impl Paper {
    pub fn phase(&self) -> u8 {
        match self {
            Paper::Fresh(_) => 0,
            Paper::Waiting(_) => 1,
            Paper::Over => 2,
        }
    }

    /// What is seen of the tick, and the litres of its instant: none of one that is wrong.
    pub fn tick(&mut self, order: Order, input: u32, answer_length: usize) -> (Seen, Litres) {
        if answer_length != 12 {
            return (Seen::TurnedDown(1), Litres::new());
        }
        let (Paper::Fresh(term) | Paper::Waiting(term)) = self else { return (Seen::TurnedDown(12), Litres::new()) };
        let Reaction { emitted, code, residual, tree: Tree { first, reactions }, litres } = react(order, term, input);
        *self = if code == Waiting { Paper::Waiting(residual) } else { Paper::Over };
        let right = |code| (Seen::Instant { code, kind: 0, place: 0, emitted, reactions }, litres);
        match code {
            Ended => right(0),
            Waiting => right(1),
            Leaving(n) => right(n + 1),
            Wrong => {
                let (kind, place) = first.expect("a wrong instant has an error");
                (Seen::Instant { code: 255, kind, place, emitted: 0, reactions }, Litres::new())
            }
        }
    }
}
