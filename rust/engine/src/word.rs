//! The words of a question file.

const KIND: u32 = 30;
const ARITY: u32 = 12;
const NEGATIVE: u32 = 1 << 15;
const RESTRICTED: u32 = 1 << 16;

/// A function, constant or predicate: number and arity together name it.
#[derive(Clone, Copy, Debug, PartialEq, Eq, Hash, PartialOrd, Ord)]
pub struct Symbol {
    pub number: u32,
    pub arity: u32,
}

#[derive(Clone, Copy, Debug, PartialEq, Eq)]
pub enum Word {
    Variable(u32),
    Function(Symbol),
    Literal { predicate: Symbol, negative: bool },
    Clause { literals: u32, variables: u32, following: u32, restricted: bool },
}

/// What a word says; nothing if a field is out of its range or a bit without a name is set.
pub fn decode(word: u32) -> Option<Word> {
    let meaning = match word >> KIND {
        0 => Word::Variable(word & 0x3FF),
        1 => Word::Function(symbol(word)),
        2 => Word::Literal { predicate: symbol(word), negative: word & NEGATIVE != 0 },
        _ => Word::Clause {
            literals: word & 7,
            variables: word >> 3 & 31,
            following: word >> 8 & 255,
            restricted: word & RESTRICTED != 0,
        },
    };
    (in_range(meaning) && encode(meaning) == word).then_some(meaning)
}

pub fn encode(word: Word) -> u32 {
    match word {
        Word::Variable(number) => number,
        Word::Function(symbol) => 1 << KIND | symbol_bits(symbol),
        Word::Literal { predicate, negative } => {
            2 << KIND | if negative { NEGATIVE } else { 0 } | symbol_bits(predicate)
        }
        Word::Clause { literals, variables, following, restricted } => {
            3 << KIND | if restricted { RESTRICTED } else { 0 } | following << 8 | variables << 3 | literals
        }
    }
}

fn symbol(word: u32) -> Symbol {
    Symbol { number: word & 0xFFF, arity: word >> ARITY & 7 }
}

fn symbol_bits(symbol: Symbol) -> u32 {
    symbol.arity << ARITY | symbol.number
}

fn in_range(word: Word) -> bool {
    match word {
        Word::Variable(_) => true,
        Word::Function(symbol) => symbol.arity <= 4,
        Word::Literal { predicate, .. } => predicate.arity <= 4,
        Word::Clause { literals, variables, following, .. } => literals >= 1 && variables <= 16 && following >= 1,
    }
}
