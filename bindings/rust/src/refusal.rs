//! A refusal: its number on the desk's list, its place, and what it means.
use std::{error, fmt};

/// Why the desk said no. Nothing that was lent was altered, but that a text in pieces may have ended with it.
#[derive(Clone, Copy, Debug, PartialEq, Eq, Hash)]
pub struct Refusal {
    number: u8,
    place: u32,
}

/// What a refusal's place counts.
#[derive(Clone, Copy, Debug, PartialEq, Eq, Hash)]
pub enum Place {
    /// a line of the task's text, from 1
    Line(u32),
    /// a variable, from 0
    Variable(u32),
    /// a step, as it was offered or from 1 in a list
    Step(u32),
    /// the length of a list
    Length(u32),
    /// the refusal has no place
    Nowhere,
}

impl Refusal {
    pub(crate) fn new(number: u8, place: u32) -> Refusal {
        Refusal { number, place }
    }

    /// The number on the desk's list.
    pub fn number(self) -> u8 {
        self.number
    }

    /// The place as the list has it: a number, 0 where there is none.
    pub fn place_number(self) -> u32 {
        self.place
    }

    /// The place, and what it counts.
    pub fn place(self) -> Place {
        match self.number {
            2 | 3 if self.place == 0 => Place::Nowhere,
            2..=7 | 18 => Place::Line(self.place),
            9 => Place::Variable(self.place),
            10 | 12..=15 | 19 => Place::Step(self.place),
            16 => Place::Length(self.place),
            _ => Place::Nowhere,
        }
    }

    /// What the number means.
    pub fn meaning(self) -> &'static str {
        match self.number {
            1 => "the text is above 16,384 bytes",
            2 if self.place == 0 => "the text has ended",
            2 => "the text is off the form",
            3 if self.place == 0 => "the task has no such map",
            3 => "a number is outside its range",
            4 => "a fact's variable is not above the one before",
            5 => "a class is missing in a variable's list",
            6 => "an operator's shares total above its cost",
            7 => "a map has more than 4,096 abstract states",
            8 => "a lent table is shorter than needed",
            9 => "a state's value is outside its variable",
            10 => "there is no such operator",
            11 => "the sequence has more than 1,024 steps",
            12 => "the operator may not run",
            13 => "the step's number is 0 or beyond the next",
            14 => "an old step's number came with another operator",
            15 => "the run already has 1,024 steps",
            16 => "the sequence ends without the goal",
            17 => "the run isn't what its start and log give",
            18 => "an operator is idle: it has no effect but what it asks for",
            19 => "the step would store a test beyond the quota",
            _ => "a number that this crate does not know",
        }
    }
}

impl fmt::Display for Place {
    fn fmt(&self, f: &mut fmt::Formatter<'_>) -> fmt::Result {
        match self {
            Place::Line(line) => write!(f, "line {line}"),
            Place::Variable(variable) => write!(f, "variable {variable}"),
            Place::Step(step) => write!(f, "step {step}"),
            Place::Length(length) => write!(f, "length {length}"),
            Place::Nowhere => write!(f, "place 0"),
        }
    }
}

impl fmt::Display for Refusal {
    fn fmt(&self, f: &mut fmt::Formatter<'_>) -> fmt::Result {
        write!(f, "refused {} at {}: {}", self.number, self.place(), self.meaning())
    }
}

impl error::Error for Refusal {}
