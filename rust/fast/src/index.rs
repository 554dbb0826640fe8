//! What is noted of a file once a call: its literals in their order, and those of one word side by side, with what a look at the first
//! symbols of their arguments tells.

use crate::memory::at;
use crate::words::{NEGATIVE, arity, following, is_function, is_literal};

pub const NONE: u16 = u16::MAX;

/// Groups of at least so many entries have links by the first argument's symbol.
const LINKED: usize = 12;

pub struct Index<'a> {
    pub body: &'a [u32],
    /// In the order of the file.
    pub literals: &'a [Literal],
    /// The first literal of each clause.
    pub clauses: &'a [u16],
    /// Those of one group side by side, each group in the order of the file.
    pub entries: &'a [Entry],
    pub groups: &'a [Group],
    /// For each hash of a group and a first symbol, its first entry; empty where no group is linked.
    heads: &'a [u16],
}

/// Where an index is made. A call that finds memory here need not ask for it.
#[derive(Default)]
pub struct Notes {
    literals: Vec<Literal>,
    clauses: Vec<u16>,
    entries: Vec<Entry>,
    groups: Vec<Group>,
    heads: Vec<u16>,
    /// Groups by the hash of their word.
    table: Vec<u16>,
}

#[derive(Clone, Copy)]
pub struct Literal {
    pub place: u16,
    /// Where its clause word stands.
    pub clause: u16,
    pub group: u16,
    /// The group of the literals that fit it.
    pub fitting: u16,
    /// How many literals stand before and after it in its clause.
    pub before: u8,
    pub after: u8,
    pub arity: u8,
    /// No variable stands in it twice.
    pub linear: bool,
    /// A bit for each argument whose variables stand in no argument before it.
    pub new: u8,
    /// How far from the literal its arguments stand.
    pub offsets: [u8; 4],
}

/// All literals of one word.
#[derive(Clone, Copy)]
pub struct Group {
    word: u32,
    pub start: u16,
    pub end: u16,
    pub fitting: u16,
    /// Whether some are alone in their clauses.
    pub units: bool,
    /// Of those that are not, a bit for each slot that fits the first other literal of the clause.
    pub others: u16,
    pub linked: bool,
    /// Whether the first argument of some is a variable.
    pub open: bool,
}

#[derive(Clone, Copy)]
pub struct Entry {
    pub tops: Tops,
    pub literal: u16,
    /// The next entry of the same hash.
    link: u16,
}

/// The symbols of up to four arguments, 16 bits each; nothing for variables.
#[derive(Clone, Copy, Default)]
pub struct Tops {
    symbols: u64,
    known: u64,
}

impl Tops {
    #[inline(always)]
    pub fn add(&mut self, argument: usize, word: u32) {
        self.symbols |= u64::from(word & 0x7FFF) << (16 * argument);
        self.known |= 0xFFFF << (16 * argument);
    }

    /// Whether two arguments have different symbols.
    #[inline(always)]
    pub fn clash(self, other: Tops) -> bool {
        (self.symbols ^ other.symbols) & self.known & other.known != 0
    }

    #[inline(always)]
    pub fn words(self) -> [u32; 4] {
        let Tops { symbols, known } = self;
        [symbols as u32, (symbols >> 32) as u32, known as u32, (known >> 32) as u32]
    }

    #[inline(always)]
    pub fn of_words(words: [u32; 4]) -> Tops {
        let [symbols, upper_symbols, known, upper_known] = words.map(u64::from);
        Tops { symbols: symbols | upper_symbols << 32, known: known | upper_known << 32 }
    }

    /// The first argument's symbol.
    #[inline(always)]
    pub fn first(self) -> Option<u16> {
        (self.known & 1 != 0).then_some(self.symbols as u16)
    }
}

/// Where a group's literals are noted on a branch: the same slot may be that of several groups.
#[inline(always)]
pub fn slot(group: u16) -> u32 {
    u32::from(group) & 15
}

impl Notes {
    pub fn index<'a>(&'a mut self, body: &'a [u32]) -> Index<'a> {
        self.note_literals(body);
        self.note_groups(body);
        self.note_entries(body);
        self.note_links();
        let Notes { literals, clauses, entries, groups, heads, .. } = self;
        Index { body, literals, clauses, entries, groups, heads }
    }

    fn note_literals(&mut self, body: &[u32]) {
        self.literals.clear();
        self.clauses.clear();
        let mut clause = 0;
        while clause < body.len() {
            let end = clause + 1 + following(at(body, clause));
            let first = self.literals.len();
            self.clauses.push(first as u16);
            let mut place = clause + 1;
            while place < end {
                self.literals.push(note_literal(body, clause, &mut place, self.literals.len() - first));
            }
            let last = self.literals.len() - 1;
            for (literal, noted) in self.literals[first..].iter_mut().enumerate() {
                noted.after = (last - first - literal) as u8;
            }
            clause = end;
        }
    }

    /// Numbers the words of the literals by first use.
    fn note_groups(&mut self, body: &[u32]) {
        let Notes { literals, groups, table, .. } = self;
        groups.clear();
        table.clear();
        table.resize((2 * literals.len()).next_power_of_two(), NONE);
        for literal in literals.iter_mut() {
            let word = at(body, literal.place as usize);
            let found = find(table, groups, word);
            if table[found] == NONE {
                table[found] = groups.len() as u16;
                groups.push(Group::of(word));
            }
            literal.group = table[found];
            groups[table[found] as usize].end += 1;
        }
        for group in 0..groups.len() {
            groups[group].fitting = table[find(table, groups, groups[group].word ^ NEGATIVE)];
        }
        for literal in literals {
            literal.fitting = groups[literal.group as usize].fitting;
        }
    }

    fn note_entries(&mut self, body: &[u32]) {
        let Notes { literals, groups, entries, .. } = self;
        let mut next = 0;
        for group in groups.iter_mut() {
            let count = group.end;
            (group.start, group.end) = (next, next);
            next += count;
        }
        entries.resize(literals.len(), Entry { tops: Tops::default(), literal: 0, link: NONE });
        for (number, literal) in literals.iter().enumerate() {
            let mut tops = Tops::default();
            for argument in 0..literal.arity as usize {
                let word = at(body, literal.argument(argument));
                if is_function(word) {
                    tops.add(argument, word);
                }
            }
            let group = &mut groups[literal.group as usize];
            entries[group.end as usize] = Entry { tops, literal: number as u16, link: NONE };
            group.end += 1;
            group.open |= tops.first().is_none();
            if literal.before + literal.after == 0 {
                group.units = true;
            } else {
                let other = literals[literal.first_other(number) as usize];
                group.others |= 1 << slot(other.fitting);
            }
        }
    }

    fn note_links(&mut self) {
        let Notes { groups, entries, heads, .. } = self;
        let long = |group: &Group| (group.end - group.start) as usize >= LINKED && arity(group.word) > 0;
        heads.clear();
        if !groups.iter().any(long) {
            return;
        }
        heads.resize((2 * entries.len()).next_power_of_two(), NONE);
        for (number, group) in groups.iter_mut().enumerate().rev() {
            group.linked = long(group);
            if !group.linked {
                continue;
            }
            for entry in (group.start..group.end).rev() {
                let head = hash(number as u16, entries[entry as usize].tops.first()) & (heads.len() - 1);
                entries[entry as usize].link = heads[head];
                heads[head] = entry;
            }
        }
    }
}

#[inline(always)]
fn hash(group: u16, symbol: Option<u16>) -> usize {
    let key = u32::from(group) << 16 | u32::from(symbol.unwrap_or(NONE));
    (key.wrapping_mul(0x9E37_79B1) >> 7) as usize
}

impl Index<'_> {
    /// The first entry of a linked group whose first argument has the symbol, or is a variable.
    #[inline(always)]
    pub fn first_linked(&self, group: u16, symbol: Option<u16>) -> u16 {
        let head = at(self.heads, hash(group, symbol) & (self.heads.len() - 1));
        self.linked_from(head, group, symbol)
    }

    #[inline(always)]
    pub fn next_linked(&self, entry: u16, group: u16, symbol: Option<u16>) -> u16 {
        self.linked_from(at(self.entries, entry as usize).link, group, symbol)
    }

    #[inline(always)]
    fn linked_from(&self, mut entry: u16, group: u16, symbol: Option<u16>) -> u16 {
        let Group { start, end, .. } = at(self.groups, group as usize);
        while entry != NONE {
            let within = (start..end).contains(&entry);
            if within && at(self.entries, entry as usize).tops.first() == symbol {
                return entry;
            }
            entry = at(self.entries, entry as usize).link;
        }
        NONE
    }
}

impl Group {
    fn of(word: u32) -> Group {
        let (start, end, fitting, others) = (0, 0, NONE, 0);
        Group { word, start, end, fitting, units: false, others, linked: false, open: false }
    }
}

impl Literal {
    #[inline(always)]
    pub fn argument(&self, number: usize) -> usize {
        self.place as usize + self.offsets[number] as usize
    }

    /// The first literal of its clause but itself, which has this number.
    #[inline(always)]
    pub fn first_other(&self, number: usize) -> u32 {
        if self.before == 0 { number as u32 + 1 } else { number as u32 - u32::from(self.before) }
    }
}

/// Notes the literal at the place, and goes on to the place after it.
fn note_literal(body: &[u32], clause: usize, place: &mut usize, before: usize) -> Literal {
    let start = *place;
    let count = arity(at(body, start));
    let (mut met, mut linear, mut new, mut offsets) = (0u32, true, 0, [0; 4]);
    *place += 1;
    for (argument, offset) in offsets.iter_mut().enumerate().take(count as usize) {
        *offset = (*place - start) as u8;
        let mut inside = 0;
        let mut owed = 1;
        while owed != 0 {
            let word = at(body, *place);
            debug_assert!(!is_literal(word));
            *place += 1;
            owed -= 1;
            if is_function(word) {
                owed += arity(word);
            } else {
                linear &= (met | inside) >> word & 1 == 0;
                inside |= 1 << word;
            }
        }
        new |= u8::from(met & inside == 0) << argument;
        met |= inside;
    }
    Literal {
        place: start as u16,
        clause: clause as u16,
        group: 0,
        fitting: NONE,
        before: before as u8,
        after: 0,
        arity: count as u8,
        linear,
        new,
        offsets,
    }
}

/// Where the word's group stands in the table, or where it is to be put.
fn find(table: &[u16], groups: &[Group], word: u32) -> usize {
    let mut place = (word.wrapping_mul(0x9E37_79B1) >> 12) as usize;
    loop {
        place &= table.len() - 1;
        if table[place] == NONE || groups[table[place] as usize].word == word {
            return place;
        }
        place += 1;
    }
}
