//! Judging a file: the refusals 4 to 9 and 21. Nothing is built, but for education a body without its restricted clauses; the search works on
//! the file's words.

use crate::words::{FUNCTION, LITERAL, NEGATIVE, RESTRICTED, arity, following, kind, literals, variables};
use engine::{Report, Status};
use std::borrow::Cow;

pub struct Accepted<'a> {
    pub body: Cow<'a, [u32]>,
    pub question: usize,
}

impl Accepted<'_> {
    /// With the words of the unrestricted clauses alone.
    pub fn unrestricted(&self) -> Accepted<'static> {
        let mut body = Vec::new();
        let (mut start, mut question) = (0, 0);
        while start < self.body.len() {
            let end = start + 1 + following(self.body[start]);
            if self.body[start] & RESTRICTED == 0 {
                question = body.len();
                body.extend_from_slice(&self.body[start..end]);
            }
            start = end;
        }
        Accepted { body: Cow::Owned(body), question }
    }
}

pub fn accept(file: &[u32]) -> Result<Accepted<'_>, Report> {
    if file.len() < 6 || file.len() > 16_000 {
        return Err(Report::of(Status::FileLength));
    }
    let (body, trailer) = file.split_at(file.len() - 4);
    let (question, count) = (trailer[0] as usize, trailer[1]);
    if trailer[3] as usize != body.len() || count == 0 || count > 512 || question >= body.len() {
        return Err(Report::of(Status::Trailer));
    }
    let (judged, fingerprint) = judge_body(body);
    if trailer[2] != fingerprint {
        return Err(Report::of(Status::Fingerprint));
    }
    let (clauses, last) = judged.map_err(|place| Report::at(Status::MalformedBody, place))?;
    if clauses != count || last != question {
        return Err(Report::of(Status::ClauseCount));
    }
    if body[question..].iter().any(|&word| kind(word) == LITERAL && word & NEGATIVE == 0) {
        return Err(Report::of(Status::PositiveQuestion));
    }
    if body[question] & RESTRICTED != 0 {
        return Err(Report::of(Status::RestrictedQuestion));
    }
    Ok(Accepted { body: Cow::Borrowed(body), question })
}

const START: u32 = 0x811C_9DC5;
const PRIME: u32 = 0x0100_0193;
const PRIME_2: u32 = PRIME.wrapping_mul(PRIME);
const PRIME_4: u32 = PRIME_2.wrapping_mul(PRIME_2);

/// The fingerprint of one word more. Its products wait for each other, so the words are judged meanwhile.
#[inline(always)]
fn fingerprint(hash: u32, word: u32) -> u32 {
    word.to_le_bytes().iter().fold(hash, |hash, &byte| (hash ^ u32::from(byte)).wrapping_mul(PRIME))
}

/// The same of a variable, whose upper three bytes are 0: four products are one.
#[inline(always)]
fn with_variable(hash: u32, word: u32) -> u32 {
    (hash ^ word).wrapping_mul(PRIME_4)
}

/// The same of any other word that fits and has no mark: the third byte is 0, so two products are one.
#[inline(always)]
fn with_word(hash: u32, word: u32) -> u32 {
    let [first, second, _, fourth] = word.to_le_bytes().map(u32::from);
    let hash = (hash ^ first).wrapping_mul(PRIME);
    let hash = (hash ^ second).wrapping_mul(PRIME_2);
    (hash ^ fourth).wrapping_mul(PRIME)
}

/// The number of clauses and the last one's place, or the place of the first wrong word; and the fingerprint.
fn judge_body(body: &[u32]) -> (Result<(u32, usize), usize>, u32) {
    let (mut start, mut last, mut count) = (0, 0, 0);
    let mut hash = START;
    while start < body.len() {
        last = start;
        count += 1;
        let (end, taken, fine) = judge_clause(body, start, hash);
        if !fine {
            return (Err(end), body.iter().fold(START, |hash, &word| fingerprint(hash, word)));
        }
        (start, hash) = (end, taken);
    }
    (Ok((count, last)), hash)
}

/// The place after the clause and the fingerprint up to it; or the place of the first wrong word.
#[inline(always)]
fn judge_clause(body: &[u32], start: usize, hash: u32) -> (usize, u32, bool) {
    let clause = body[start];
    let mut literals = literals(clause);
    let variables = variables(clause);
    let end = start + 1 + following(clause);
    if (clause & !RESTRICTED) >> 16 != 0xC000 || literals == 0 || variables > 16 || end == start + 1 || end > body.len()
    {
        return (start, hash, false);
    }
    let mut hash = if clause & RESTRICTED == 0 { with_word(hash, clause) } else { fingerprint(hash, clause) };
    let mut terms = 0;
    for (place, &word) in (start + 1..).zip(&body[start + 1..end]) {
        if terms == 0 {
            if literals == 0 || !literal_fits(word) {
                return (place, hash, false);
            }
            literals -= 1;
        } else {
            terms -= 1;
            if word < variables {
                hash = with_variable(hash, word);
                continue;
            }
            if !function_fits(word) {
                return (place, hash, false);
            }
        }
        terms += arity(word);
        hash = with_word(hash, word);
    }
    (end, hash, terms == 0 && literals == 0)
}

#[inline(always)]
fn function_fits(word: u32) -> bool {
    kind(word) == FUNCTION && word & 0x3FFF_8000 == 0 && arity(word) <= 4
}

#[inline(always)]
fn literal_fits(word: u32) -> bool {
    kind(word) == LITERAL && word & 0x3FFF_0000 == 0 && arity(word) <= 4
}
