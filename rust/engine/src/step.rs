//! The steps of a proof and their words.

use crate::Reading;

const EXTENSION: u32 = 1 << 30;
const RESTART: u32 = 1 << 31;

/// `height` counts from 1, the leaf's parent; `clause` and `literal` from 0.
#[derive(Clone, Copy, Debug, PartialEq, Eq)]
pub enum Step {
    Reduction { height: u32 },
    Extension { clause: u32, literal: u32 },
    Restart,
}

impl Step {
    pub fn decode(reading: Reading, word: u32) -> Option<Step> {
        match word {
            RESTART if reading == Reading::Restart => Some(Step::Restart),
            1..=63 => Some(Step::Reduction { height: word }),
            EXTENSION..=0x4000_0FFF => Some(Step::Extension { clause: word & 511, literal: word >> 9 & 7 }),
            _ => None,
        }
    }

    pub fn encode(self) -> u32 {
        match self {
            Step::Reduction { height } => height,
            Step::Extension { clause, literal } => EXTENSION | literal << 9 | clause,
            Step::Restart => RESTART,
        }
    }
}
