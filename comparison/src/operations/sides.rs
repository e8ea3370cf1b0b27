//! The outcomes of two sides, held against each other and against what was lent.

use crate::difference::{Difference, Forms};
use crate::library::{Answer, Ended, FileAnswer, SizeAnswer};
use crate::spaces::Lent;
use std::fmt::Display;

/// What one side answered, and the buffers after it.
#[derive(Clone, PartialEq)]
pub struct Outcome<A, B> {
    pub answer: A,
    pub buffers: B,
}

impl<A, B: Clone> Outcome<A, B> {
    /// The outcome of a call that is given a copy of the lent buffers.
    pub fn of(lent: &B, call: impl FnOnce(&mut B) -> A) -> Outcome<A, B> {
        let mut buffers = lent.clone();
        let answer = call(&mut buffers);
        Outcome { answer, buffers }
    }
}

/// An answer with the number of a refusal in it, or 0.
pub trait Numbered: PartialEq + Display {
    fn number(&self) -> u64;
}

impl Numbered for Answer {
    fn number(&self) -> u64 {
        self.number
    }
}

impl Numbered for Ended {
    fn number(&self) -> u64 {
        self.number
    }
}

impl Numbered for FileAnswer {
    fn number(&self) -> u64 {
        self.number
    }
}

impl Numbered for SizeAnswer {
    fn number(&self) -> u64 {
        self.number
    }
}

/// A case whose two outcomes are held against each other.
pub trait Compared<A: Numbered> {
    type Buffers: Clone + PartialEq;

    /// The buffers as they are lent.
    fn lent(&self) -> &Self::Buffers;

    /// The case written out, where the sides differ.
    fn difference(&self, sides: Sides<A, Self::Buffers>) -> Difference;

    /// The outcome of a call that is given copies of the lent buffers.
    fn outcome(
        &self,
        call: impl FnOnce(&Self, &mut Self::Buffers) -> A,
    ) -> Outcome<A, Self::Buffers> {
        Outcome::of(self.lent(), |buffers| call(self, buffers))
    }

    /// The number that both sides answered, or the difference. The other side
    /// is named in the report.
    fn verdict(
        &self,
        name: &str,
        other: &Outcome<A, Self::Buffers>,
        library: &Outcome<A, Self::Buffers>,
    ) -> Result<u64, Difference> {
        let sides = Sides {
            lent: self.lent(),
            sides: [(name, other), ("library", library)],
        };
        if sides.agree() {
            Ok(library.answer.number())
        } else {
            Err(self.difference(sides))
        }
    }

    /// Runs both sides and gives their verdict.
    fn compare(
        &self,
        name: &str,
        other: impl FnOnce(&Self, &mut Self::Buffers) -> A,
        library: impl FnOnce(&Self, &mut Self::Buffers) -> A,
    ) -> Result<u64, Difference> {
        self.verdict(name, &self.outcome(other), &self.outcome(library))
    }
}

/// The lent buffers, and the outcome of each side by its name.
pub struct Sides<'a, A, B> {
    pub lent: &'a B,
    pub sides: [(&'a str, &'a Outcome<A, B>); 2],
}

impl<'a, A: Display + PartialEq, B: PartialEq> Sides<'a, A, B> {
    pub fn agree(&self) -> bool {
        self.sides[0].1 == self.sides[1].1
    }

    pub fn answers(&self, difference: &mut Difference) {
        for (side, outcome) in self.sides {
            difference.value(&format!("answer of the {side}"), &outcome.answer);
        }
    }

    /// One of the buffers as it was lent and as each side left it.
    pub fn forms<T>(&self, buffer: fn(&B) -> &Lent<T>) -> Forms<'a, T> {
        Forms {
            lent: buffer(self.lent),
            left: self
                .sides
                .map(|(side, outcome)| (side, buffer(&outcome.buffers))),
        }
    }
}
