//! Reading a question file, with the refusals 4 to 9 and 21, and writing one.

use crate::report::{Report, Status};
use crate::syntax::{Clause, Literal, Table, Term};
use crate::word::{self, Word};
use std::ops::Range;

pub const TRAILER: usize = 4;

/// Where reading stopped: the word's place in the file.
type Malformed = usize;

/// A file that passed every check.
#[derive(Debug)]
pub struct QuestionFile {
    pub table: Table,
    /// Which words of the file are the clause's own, for each clause.
    pub ranges: Vec<Range<usize>>,
}

pub fn read(file: &[u32]) -> Result<QuestionFile, Report> {
    if !(6..=16_000).contains(&file.len()) {
        return Err(Report::of(Status::FileLength));
    }
    let (body, trailer) = file.split_at(file.len() - TRAILER);
    let [question_at, count, stated_fingerprint, stated_length] = [trailer[0], trailer[1], trailer[2], trailer[3]];
    if stated_length as usize != body.len() || !(1..=512).contains(&count) || question_at >= stated_length {
        return Err(Report::of(Status::Trailer));
    }
    if stated_fingerprint != fingerprint(body) {
        return Err(Report::of(Status::Fingerprint));
    }
    let read = read_body(body).map_err(|place| Report::at(Status::MalformedBody, place))?;
    let last = read.ranges.last().expect("a body has at least one word");
    if read.ranges.len() != count as usize || last.start != question_at as usize {
        return Err(Report::of(Status::ClauseCount));
    }
    if read.table.question().literals.iter().any(|literal| !literal.negative) {
        return Err(Report::of(Status::PositiveQuestion));
    }
    if read.table.question().restricted {
        return Err(Report::of(Status::RestrictedQuestion));
    }
    Ok(read)
}

/// 32-bit FNV-1a over the words, each lowest byte first.
pub fn fingerprint(body: &[u32]) -> u32 {
    fnv1a(body.iter().flat_map(|word| word.to_le_bytes()))
}

pub fn fnv1a(bytes: impl Iterator<Item = u8>) -> u32 {
    bytes.fold(0x811C_9DC5, |hash, byte| (hash ^ u32::from(byte)).wrapping_mul(0x0100_0193))
}

fn read_body(body: &[u32]) -> Result<QuestionFile, Malformed> {
    let mut clauses = Vec::new();
    let mut ranges = Vec::new();
    let mut start = 0;
    while start < body.len() {
        let (clause, length) = read_clause(&body[start..]).map_err(|place| start + place)?;
        clauses.push(clause);
        ranges.push(start..start + length);
        start += length;
    }
    Ok(QuestionFile { table: Table { clauses }, ranges })
}

/// The clause at the front of the part, and its length.
fn read_clause(part: &[u32]) -> Result<(Clause, usize), Malformed> {
    let Some(Word::Clause { literals, variables, following, restricted }) = word::decode(part[0]) else {
        return Err(0);
    };
    let length = 1 + following as usize;
    if length > part.len() {
        return Err(0);
    }
    let mut reader = Reader { words: &part[..length], place: 1, variables };
    let literals = (0..literals).map(|_| reader.literal()).collect::<Result<_, _>>()?;
    if reader.place < length {
        return Err(reader.place);
    }
    Ok((Clause { restricted, variables, literals }, length))
}

struct Reader<'a> {
    words: &'a [u32],
    place: usize,
    variables: u32,
}

impl Reader<'_> {
    fn literal(&mut self) -> Result<Literal, Malformed> {
        match self.peek() {
            Some(Word::Literal { predicate, negative }) => {
                self.place += 1;
                Ok(Literal { negative, predicate, arguments: self.terms(predicate.arity)? })
            }
            _ => Err(self.place),
        }
    }

    fn terms(&mut self, count: u32) -> Result<Vec<Term>, Malformed> {
        (0..count).map(|_| self.term()).collect()
    }

    fn term(&mut self) -> Result<Term, Malformed> {
        match self.peek() {
            Some(Word::Variable(number)) if number < self.variables => {
                self.place += 1;
                Ok(Term::Variable(number))
            }
            Some(Word::Function(symbol)) => {
                self.place += 1;
                Ok(Term::Application(symbol, self.terms(symbol.arity)?))
            }
            _ => Err(self.place),
        }
    }

    /// The next word's meaning; nothing at the clause's end too, whose place is then the one to report.
    fn peek(&self) -> Option<Word> {
        self.words.get(self.place).copied().and_then(word::decode)
    }
}

/// The words of the table as a question file.
pub fn write(table: &Table) -> Vec<u32> {
    let clauses: Vec<Vec<u32>> = table.clauses.iter().map(clause_words).collect();
    let question_at = clauses[..table.question_number()].iter().map(Vec::len).sum::<usize>();
    with_trailer(clauses.concat(), question_at as u32, clauses.len() as u32)
}

pub fn with_trailer(body: Vec<u32>, question_at: u32, count: u32) -> Vec<u32> {
    let trailer = [question_at, count, fingerprint(&body), body.len() as u32];
    [body, trailer.to_vec()].concat()
}

pub fn clause_words(clause: &Clause) -> Vec<u32> {
    let mut words = vec![0];
    for literal in &clause.literals {
        words.push(word::encode(Word::Literal { predicate: literal.predicate, negative: literal.negative }));
        literal.arguments.iter().for_each(|term| push_term(term, &mut words));
    }
    words[0] = word::encode(Word::Clause {
        literals: clause.literals.len() as u32,
        variables: clause.variables,
        following: words.len() as u32 - 1,
        restricted: clause.restricted,
    });
    words
}

fn push_term(term: &Term, words: &mut Vec<u32>) {
    match term {
        Term::Variable(number) => words.push(word::encode(Word::Variable(*number))),
        Term::Application(symbol, arguments) => {
            words.push(word::encode(Word::Function(*symbol)));
            arguments.iter().for_each(|argument| push_term(argument, words));
        }
    }
}
