//! What comes back from a search or a check.

#[derive(Clone, Copy, Debug, PartialEq, Eq)]
pub enum Status {
    Proved = 0,
    WorkTooShort = 1,
    ProofTooShort = 2,
    BoundTooLarge = 3,
    FileLength = 4,
    Trailer = 5,
    Fingerprint = 6,
    MalformedBody = 7,
    ClauseCount = 8,
    PositiveQuestion = 9,
    NoProof = 10,
    RanOut = 11,
    MalformedStep = 12,
    StepNotAllowed = 13,
    Clash = 14,
    LeavesOpen = 15,
    AnswerTooLong = 16,
    Circle = 20,
    RestrictedQuestion = 21,
    NoPositiveLiteral = 22,
}

/// Numbers that the status does not name are 0.
#[derive(Clone, Copy, Debug, PartialEq, Eq)]
pub struct Report {
    pub status: Status,
    pub place: u32,
    pub proof_words: u32,
    pub disjuncts: u32,
    pub answer_words: u32,
    pub tries: u32,
}

impl Report {
    pub fn of(status: Status) -> Report {
        Report { status, place: 0, proof_words: 0, disjuncts: 0, answer_words: 0, tries: 0 }
    }

    pub fn at(status: Status, place: usize) -> Report {
        Report { place: place as u32, ..Report::of(status) }
    }

    pub fn after(status: Status, tries: u32) -> Report {
        Report { tries, ..Report::of(status) }
    }
}
