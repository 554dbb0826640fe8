//! Who asks, and how rules are read.

use crate::{PROOF_WORDS, RESTART_PROOF_WORDS};

/// Education passes over restricted clauses and numbers the others from 0.
#[derive(Clone, Copy, Debug, PartialEq, Eq)]
pub enum Desk {
    Collections,
    Education,
}

/// Document 01's rules, or source 000's restart reading: clauses are entered by positive literals alone, and a positive leaf that is not
/// reduced is restarted.
#[derive(Clone, Copy, Debug, PartialEq, Eq)]
pub enum Reading {
    Base,
    Restart,
}

#[derive(Clone, Copy, Debug, PartialEq, Eq)]
pub struct Asker {
    pub desk: Desk,
    pub reading: Reading,
}

impl Asker {
    /// Document 01's own.
    pub const BASE: Asker = Asker { desk: Desk::Collections, reading: Reading::Base };
}

impl Reading {
    /// How many words a search wants for its proof.
    pub fn proof_words(self) -> usize {
        match self {
            Reading::Base => PROOF_WORDS,
            Reading::Restart => RESTART_PROOF_WORDS,
        }
    }
}

impl From<Desk> for Asker {
    fn from(desk: Desk) -> Asker {
        Asker { desk, ..Asker::BASE }
    }
}

impl From<Reading> for Asker {
    fn from(reading: Reading) -> Asker {
        Asker { reading, ..Asker::BASE }
    }
}
