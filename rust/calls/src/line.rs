//! A request line taken apart: the verb, its numbers, its lists.

pub const WORK_ROOM: usize = 20_000;
pub const PROOF_ROOM: usize = 300;
pub const ANSWER_ROOM: usize = 20_000;
pub const OFFERED_ROOM: usize = 1_024;
pub const FILE_ROOM: usize = 16_100;
pub const TEXT_ROOM: usize = 131_072;

pub struct Line<'a> {
    pub verb: &'a str,
    pub numbers: Vec<u32>,
    pub lists: Vec<&'a str>,
}

/// Nothing for a line that is no text, or whose numbers cannot be read.
pub fn take_apart(line: &[u8]) -> Option<Line<'_>> {
    let line = str::from_utf8(line).ok()?;
    let mut parts = line.split(" / ");
    let mut head = parts.next()?.split(' ');
    let verb = head.next()?;
    let numbers = head.map(decimal).collect::<Option<_>>()?;
    Some(Line { verb, numbers, lists: parts.collect() })
}

/// Digits alone: the library's own reading would take a sign as well.
pub fn decimal(text: &str) -> Option<u32> {
    if text.bytes().all(|byte| byte.is_ascii_digit()) { text.parse().ok() } else { None }
}

fn hexadecimal(text: &str) -> Option<u32> {
    let digits = (1..=8).contains(&text.len()) && text.bytes().all(|byte| byte.is_ascii_hexdigit());
    if digits { u32::from_str_radix(text, 16).ok() } else { None }
}

pub fn length(number: u32, room: usize) -> Option<usize> {
    let length = number as usize;
    (length <= room).then_some(length)
}

pub fn words(list: &str, room: usize) -> Option<Vec<u32>> {
    if list == "-" {
        return Some(Vec::new());
    }
    let words: Vec<u32> = list.split(' ').map(hexadecimal).collect::<Option<_>>()?;
    (words.len() <= room).then_some(words)
}

/// Two digits each, run together.
pub fn bytes(list: &str) -> Option<Vec<u8>> {
    if list == "-" {
        return Some(Vec::new());
    }
    let digits = list.as_bytes();
    let two = |pair: &[u8]| u8::try_from(hexadecimal(str::from_utf8(pair).ok()?)?).ok();
    let even = !digits.is_empty() && digits.len() % 2 == 0 && digits.len() / 2 <= TEXT_ROOM;
    if even { digits.chunks(2).map(two).collect() } else { None }
}
