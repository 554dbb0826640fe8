//! Order 1: a question file from TPTP clause text. Order 2, and out again, is in `writer`.

mod reader;
pub mod writer;

use engine::Status;
use engine::file::with_trailer;
use engine::word::{self, Symbol, Word};
use reader::{Formula, Part, Role};
use std::collections::HashMap;

pub const LONGEST_TEXT: usize = 65_536;

/// Statuses of document 02 have no names among the base's.
pub const WRONG_TEXT: u32 = 17;
pub const NOT_ONE_QUESTION: u32 = 18;
pub const OVER_A_LIMIT: u32 = 19;

#[derive(Clone, Copy, Debug, PartialEq, Eq)]
pub struct TextRead {
    pub status: u32,
    pub place: u32,
    pub words: u32,
}

pub fn read(text: &[u8], file: &mut [u32]) -> TextRead {
    match words(text, file.len()) {
        Ok(words) => {
            file[..words.len()].copy_from_slice(&words);
            TextRead { status: 0, place: 0, words: words.len() as u32 }
        }
        Err((status, place)) => TextRead { status, place: place as u32, words: 0 },
    }
}

fn words(text: &[u8], room: usize) -> Result<Vec<u32>, (u32, usize)> {
    if text.len() > LONGEST_TEXT {
        return Err((WRONG_TEXT, LONGEST_TEXT));
    }
    let formulas = reader::formulas(text).map_err(|place| (WRONG_TEXT, place))?;
    let mut questions = formulas.iter().filter(|formula| formula.role == Role::Question);
    let (Some(question), None) = (questions.next(), questions.next()) else {
        return Err((NOT_ONE_QUESTION, 0));
    };
    let file = numbered(&formulas).filter(|file| file.len() <= room).ok_or((OVER_A_LIMIT, 0))?;
    let positive = |part: &Part| matches!(part, Part::Literal { negative: false, .. });
    if question.parts.iter().any(positive) {
        return Err((Status::PositiveQuestion as u32, 0));
    }
    Ok(file)
}

/// The file; nothing where a limit of document 01 is passed.
fn numbered(formulas: &[Formula]) -> Option<Vec<u32>> {
    let mut symbols = Symbols::default();
    let mut clauses = Vec::new();
    let mut question = Vec::new();
    for formula in formulas {
        let words = symbols.clause(formula)?;
        if formula.role == Role::Question { question = words } else { clauses.push(words) }
    }
    let body = clauses.concat();
    let file = with_trailer([body.as_slice(), &question].concat(), body.len() as u32, clauses.len() as u32 + 1);
    (clauses.len() < 512 && file.len() <= 16_000).then_some(file)
}

type Numbers<'a> = HashMap<&'a [u8], u32>;

#[derive(Default)]
struct Symbols<'a> {
    predicates: Numbers<'a>,
    functions: Numbers<'a>,
}

impl<'a> Symbols<'a> {
    fn clause(&mut self, formula: &Formula<'a>) -> Option<Vec<u32>> {
        let mut variables = Numbers::new();
        let mut literals = 0;
        let mut words = vec![0];
        for part in &formula.parts {
            words.push(word::encode(match *part {
                Part::Variable(name) => Word::Variable(number(&mut variables, name, 16)?),
                Part::Function { name, arity } => Word::Function(symbol(&mut self.functions, name, arity)?),
                Part::Literal { negative, name, arity } => {
                    literals += 1;
                    Word::Literal { predicate: symbol(&mut self.predicates, name, arity)?, negative }
                }
            }));
        }
        let following = words.len() as u32 - 1;
        words[0] =
            word::encode(Word::Clause { literals, variables: variables.len() as u32, following, restricted: false });
        (literals <= 7 && following <= 255).then_some(words)
    }
}

fn symbol<'a>(numbers: &mut Numbers<'a>, name: &'a [u8], arity: u32) -> Option<Symbol> {
    let number = number(numbers, name, 4_096)?;
    (arity <= 4).then_some(Symbol { number, arity })
}

/// By first use, unless there are already as many names as are allowed.
fn number<'a>(numbers: &mut Numbers<'a>, name: &'a [u8], most: u32) -> Option<u32> {
    let next = numbers.len() as u32;
    let number = *numbers.entry(name).or_insert(next);
    (number < most).then_some(number)
}
