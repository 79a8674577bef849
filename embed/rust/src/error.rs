// SPDX-License-Identifier: Apache-2.0
use std::fmt::{self, Display, Formatter};

use crate::End;

/// Says why a run can't begin.
#[derive(Clone, Copy, Debug, PartialEq, Eq)]
#[non_exhaustive]
pub enum RunError {
    /// O01: there are more or fewer inputs than main takes.
    InputCount,
    /// O02: an input doesn't fit its parameter of main.
    InputType,
    /// O03: the program needs more engines or workers.
    NoActor,
    /// O04: the limit isn't from 1 to 1,000,000.
    Limit,
    /// O07: a bound of the program is above its cap.
    AboveCap,
}

impl RunError {
    /// Returns the number after the letter O, which `tw explain O01` explains.
    pub fn number(self) -> u8 {
        match self {
            RunError::InputCount => 1,
            RunError::InputType => 2,
            RunError::NoActor => 3,
            RunError::Limit => 4,
            RunError::AboveCap => 7,
        }
    }
}

/// Says why a program isn't loaded, or why a run can't begin.
#[derive(Clone, Debug, PartialEq, Eq)]
#[non_exhaustive]
pub enum Error {
    /// The program isn't accepted.
    Refused(Refused),
    /// A run can't begin.
    Run(RunError),
    /// A run can't begin, O02: the input of this index, from 0, is the first that doesn't fit its parameter of main.
    Unfit(usize),
    /// Engines and servers are 1 to 4, workers 1 to 16.
    NoLayout,
    /// There is none of this index.
    NoIndex,
    /// The run was stopped, so it has no JSON line.
    NoEnd,
    /// The run's options didn't ask for its order.
    NoOrder,
    /// The run ended so, and not quiet: its outputs aren't the program's answer. [`Report::partial`](crate::Report::partial) has what is there.
    Unfinished(End),
    /// An input or a member of one is unset, or a member is of another type than its container.
    NoInput,
    /// An allocation failed.
    NoMemory,
}

/// Says where a program has an error. Numbers are 0 where the error has none.
#[derive(Clone, Copy, Debug, PartialEq, Eq)]
#[non_exhaustive]
pub struct Refused {
    /// `F` no program, `V` the verifier, `A` assembly text, `N` names, `H` hex text.
    pub letter: char,
    pub number: u8,
    /// V: the procedure, from 0.
    pub procedure: usize,
    /// V: the place in the procedure, from 0; F: the byte.
    pub place: usize,
    /// Line, word of the line and column, from 1. An error of names has no word and column if its line has the name twice.
    pub line: usize,
    pub word: usize,
    pub column: usize,
}

impl Refused {
    /// Takes the numbers of a verdict, in the order of `yuglemit_verdict`.
    pub(crate) fn of(verdict: &[u64; 9]) -> Refused {
        let [letter, number, _, _, procedure, place, line, word, column] = *verdict;
        let [procedure, place, line, word, column] = [procedure, place, line, word, column].map(|number| number as usize);
        Refused { letter: (letter as u8).into(), number: number as u8, procedure, place, line, word, column }
    }

    /// Returns the code that `tw explain` takes, as `V04`.
    pub fn code(&self) -> String {
        format!("{}{:02}", self.letter, self.number)
    }
}

impl Display for Refused {
    fn fmt(&self, f: &mut Formatter<'_>) -> fmt::Result {
        write!(f, "refused {}", self.code())?;
        match self.letter {
            'F' => write!(f, " at byte {}", self.place)?,
            'V' => write!(f, " in procedure {} at place {}", self.procedure, self.place)?,
            _ => {}
        }
        if self.line == 0 { Ok(()) } else { write!(f, " at line {}", self.line) }
    }
}

impl Display for Error {
    fn fmt(&self, f: &mut Formatter<'_>) -> fmt::Result {
        match self {
            Error::Refused(refused) => refused.fmt(f),
            Error::Run(why) => write!(f, "refused O{:02}", why.number()),
            Error::Unfit(index) => write!(f, "refused O02 at input {}", index + 1),
            Error::NoLayout => f.write_str("engines and servers are 1 to 4, workers 1 to 16"),
            Error::NoIndex => f.write_str("there is none of this index"),
            Error::NoEnd => f.write_str("the run was stopped"),
            Error::NoOrder => f.write_str("the run's options didn't ask for its order"),
            Error::Unfinished(end) => write!(f, "the run ended as {end:?}, so its outputs aren't the program's answer"),
            Error::NoInput => f.write_str("an input is unset, or a member is of another type than its container"),
            Error::NoMemory => f.write_str("out of memory"),
        }
    }
}

impl std::error::Error for Error {}
