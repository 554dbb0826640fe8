//! The buffers that a request lends: filled before the call, looked over after it.

use crate::Lent;
use engine::{Report, Status, WORK_WORDS};
use orders::tptp::writer::TextWritten;
use std::fmt::Write as _;

pub const FILLER: u32 = 0xA5A5_A5A5;

pub struct Buffers {
    work: Vec<u32>,
    proof: Vec<u32>,
    answer: Vec<u32>,
}

impl Buffers {
    pub fn filled(work: usize, proof: usize, answer: usize) -> Buffers {
        Buffers { work: vec![FILLER; work], proof: vec![FILLER; proof], answer: vec![FILLER; answer] }
    }

    pub fn lend(&mut self) -> Lent<'_> {
        Lent { work: &mut self.work, proof: &mut self.proof, answer: &mut self.answer }
    }

    pub fn outcome(&self, report: &Report, proof_words: usize) -> String {
        let Report { status, place, proof_words: steps, disjuncts, answer_words, tries } = *report;
        let (proof, proof_rest) = self.proof.split_at(proof_words);
        let (answer, answer_rest) = self.answer.split_at(answer_words as usize);
        let intact =
            self.work_as_promised(status == Status::WorkTooShort) && untouched(proof_rest) && untouched(answer_rest);
        format!(
            "status {} place {place} proof {steps} disjuncts {disjuncts} answer {answer_words} tries {tries} / {} / {}{}",
            status as u32,
            hex(proof),
            hex(answer),
            mark(intact)
        )
    }

    /// Zero as far as a call uses them, or all unchanged where they are too few.
    pub fn work_as_promised(&self, too_short: bool) -> bool {
        if too_short {
            return untouched(&self.work);
        }
        let (used, rest) = self.work.split_at(WORK_WORDS);
        used.iter().all(|&word| word == 0) && untouched(rest)
    }

    /// What several calls in turn have written to the proof and the answer buffer. No proof or answer has the filler for a word.
    pub fn fronts(&self) -> (&[u32], &[u32]) {
        (written(&self.proof), written(&self.answer))
    }
}

fn written(words: &[u32]) -> &[u32] {
    let end = words.iter().rposition(|&word| word != FILLER).map_or(0, |last| last + 1);
    &words[..end]
}

/// A buffer for a text.
pub struct Bytes(Vec<u8>);

impl Bytes {
    pub fn filled(length: usize) -> Bytes {
        Bytes(vec![FILLER as u8; length])
    }

    pub fn lend(&mut self) -> &mut [u8] {
        &mut self.0
    }

    /// With whether the other buffers are as they should be.
    pub fn outcome(&self, written: &TextWritten, others: bool) -> String {
        let TextWritten { status, place, bytes } = *written;
        let (text, rest) = self.0.split_at(bytes as usize);
        let digits: String = text.iter().map(|byte| format!("{byte:02X}")).collect();
        let digits = if digits.is_empty() { "-" } else { &digits };
        let intact = others && rest.iter().all(|&byte| byte == FILLER as u8);
        format!("status {} place {place} bytes {bytes} / {digits}{}", status as u32, mark(intact))
    }
}

/// What ends the line where a word that should be unchanged or zero is not.
pub fn mark(intact: bool) -> &'static str {
    if intact { "" } else { " buffers" }
}

pub fn untouched(words: &[u32]) -> bool {
    words.iter().all(|&word| word == FILLER)
}

pub fn hex(words: &[u32]) -> String {
    let Some((first, rest)) = words.split_first() else {
        return "-".to_owned();
    };
    rest.iter().fold(format!("{first:08X}"), |mut text, word| {
        write!(text, " {word:08X}").expect("a string takes text");
        text
    })
}
