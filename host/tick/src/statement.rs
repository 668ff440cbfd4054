//! Statements as terms (01, 'Commands'), and a term inside its read-back declarations (02, item 5).
use common::reference::{Command, Labels, Tree};
use std::rc::Rc;

pub type Term = Rc<Statement>;

/// The order in which the rules of a signal are tried: as 01 prints them, or inheritance of a wrong run before the
/// other four (02, item 4).
#[derive(Clone, Copy, Default, PartialEq, Eq)]
pub enum Order {
    Printed,
    #[default]
    InheritanceFirst,
}

/// What declares a signal: a command of the sequence, at its place, or the read-back set, which reports it all the same.
#[derive(Clone, Copy, PartialEq, Eq)]
pub struct Declaration {
    pub place: usize,
    pub signal: u8,
    pub reported: bool,
}

/// A loop and a signal carry their place, by which an error names them. What is left of a suspend after its first instant
/// is each machine's own: Kept is made by the expansion alone, Held by the paper alone.
#[derive(PartialEq, Eq)]
pub enum Statement {
    Nothing,
    Pause(u8),
    /// With its litres, none for an emission by 02 (item 12).
    Emit(u8, u32),
    Exit(u8),
    Seq(Term, Term),
    Par(Term, Term),
    Loop(usize, Term),
    Present(u8, Term, Term),
    Signal(Declaration, Term),
    Try(Term),
    Setpause(u8),
    Suspend(u8, Term),
    /// Tests the signal first, and with it waits with these labels.
    Kept(u8, Labels, Term),
    /// Tests the signal first, and with it stays as it is.
    Held(u8, Term),
}

/// The term of an accepted sequence.
pub fn term(tree: &Tree) -> Term {
    build(&mut tree.0.iter())
}

fn build<'a>(commands: &mut impl Iterator<Item = &'a Command>) -> Term {
    let command = commands.next().expect("a statement is whole");
    let operand = command.operand;
    let mut part = || build(commands);
    Rc::new(match command.byte {
        0x00 => Statement::Nothing,
        0x01 => Statement::Pause(operand),
        0x02 | 0x0C => Statement::Emit(operand, command.litres),
        0x03 => Statement::Exit(operand),
        0x04 => Statement::Seq(part(), part()),
        0x05 => Statement::Par(part(), part()),
        0x06 => Statement::Loop(command.at, part()),
        0x07 => Statement::Present(operand, part(), part()),
        0x08 => Statement::Signal(Declaration { place: command.at, signal: operand, reported: false }, part()),
        0x09 => Statement::Try(part()),
        0x0A => Statement::Setpause(operand),
        _ => Statement::Suspend(operand, part()),
    })
}

/// The place of every error of a read-back declaration.
pub const OUTSIDE: usize = 65535;

/// The term inside a declaration for each signal of the set, the lowest outermost.
pub fn wrap(read_back: u32, term: &Term) -> Term {
    (0..32).rev().filter(|signal| read_back >> signal & 1 == 1).fold(term.clone(), |inside, signal| {
        Rc::new(Statement::Signal(Declaration { place: OUTSIDE, signal, reported: true }, inside))
    })
}
