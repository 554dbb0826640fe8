//! Fields of words.

pub const FUNCTION: u32 = 1;
pub const LITERAL: u32 = 2;
pub const NEGATIVE: u32 = 1 << 15;

/// Of a clause word.
pub const RESTRICTED: u32 = 1 << 16;

#[inline(always)]
pub fn kind(word: u32) -> u32 {
    word >> 30
}

/// Of a word within a term: the other kind there is a variable, so that one bit tells.
#[inline(always)]
pub fn is_function(word: u32) -> bool {
    word & 1 << 30 != 0
}

/// Of a word within a clause: the other kinds there are variables and functions, so that one bit tells.
#[inline(always)]
pub fn is_literal(word: u32) -> bool {
    word & 1 << 31 != 0
}

/// Of a function or literal.
#[inline(always)]
pub fn arity(word: u32) -> u32 {
    word >> 12 & 7
}

/// Of a clause word.
#[inline(always)]
pub fn literals(word: u32) -> u32 {
    word & 7
}

/// Of a clause word.
#[inline(always)]
pub fn variables(word: u32) -> u32 {
    word >> 3 & 31
}

/// Of a clause word: how many words follow.
#[inline(always)]
pub fn following(word: u32) -> usize {
    (word >> 8 & 255) as usize
}
