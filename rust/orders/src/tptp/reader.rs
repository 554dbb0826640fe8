//! The text's formulas, or the first byte after which no permitted text can go on.

/// The place of the wrong byte; the text's length where it stops short.
type Wrong = usize;

#[derive(Clone, Copy, Debug, PartialEq, Eq)]
pub enum Role {
    Premise,
    Question,
}

/// Symbols in prefix order.
#[derive(Clone, Copy, Debug, PartialEq, Eq)]
pub enum Part<'a> {
    Literal { negative: bool, name: &'a [u8], arity: u32 },
    Function { name: &'a [u8], arity: u32 },
    Variable(&'a [u8]),
}

#[derive(Debug)]
pub struct Formula<'a> {
    pub role: Role,
    pub parts: Vec<Part<'a>>,
}

pub fn formulas(text: &[u8]) -> Result<Vec<Formula<'_>>, Wrong> {
    let mut reader = Reader { text, place: 0 };
    let mut formulas = Vec::new();
    reader.gap();
    while reader.place < text.len() {
        formulas.push(reader.formula()?);
        reader.gap();
    }
    Ok(formulas)
}

struct Reader<'a> {
    text: &'a [u8],
    place: usize,
}

impl<'a> Reader<'a> {
    fn peek(&self) -> Option<u8> {
        self.text.get(self.place).copied()
    }

    fn take(&mut self, byte: u8) -> bool {
        let here = self.peek() == Some(byte);
        self.place += here as usize;
        here
    }

    /// This byte, whatever gap stands before it.
    fn expect(&mut self, byte: u8) -> Result<(), Wrong> {
        self.gap();
        if self.take(byte) { Ok(()) } else { Err(self.place) }
    }

    fn gap(&mut self) {
        loop {
            match self.peek() {
                Some(b' ' | b'\t' | b'\r' | b'\n') => self.place += 1,
                Some(b'%') => {
                    while self.peek().is_some_and(|byte| byte != b'\n') {
                        self.place += 1;
                    }
                }
                _ => return,
            }
        }
    }

    fn keyword(&mut self, word: &[u8]) -> Result<(), Wrong> {
        word.iter().try_for_each(|&byte| if self.take(byte) { Ok(()) } else { Err(self.place) })
    }

    /// A name, whose first byte is judged by the caller's test.
    fn name(&mut self, begins: fn(&u8) -> bool) -> Result<&'a [u8], Wrong> {
        let start = self.place;
        if !self.peek().is_some_and(|byte| begins(&byte)) {
            return Err(start);
        }
        while self.peek().is_some_and(|byte| byte.is_ascii_alphanumeric() || byte == b'_') {
            self.place += 1;
        }
        Ok(&self.text[start..self.place])
    }

    fn formula(&mut self) -> Result<Formula<'a>, Wrong> {
        self.keyword(b"cnf")?;
        self.expect(b'(')?;
        self.gap();
        self.name(u8::is_ascii_lowercase)?;
        self.expect(b',')?;
        self.gap();
        let role = self.role()?;
        self.expect(b',')?;
        let mut formula = Formula { role, parts: Vec::new() };
        self.disjunction(&mut formula.parts)?;
        self.expect(b')')?;
        self.expect(b'.')?;
        Ok(formula)
    }

    fn role(&mut self) -> Result<Role, Wrong> {
        let (word, role): (&[u8], Role) = match self.peek() {
            Some(b'a') => (b"axiom", Role::Premise),
            Some(b'h') => (b"hypothesis", Role::Premise),
            _ => (b"negated_conjecture", Role::Question),
        };
        self.keyword(word)?;
        Ok(role)
    }

    fn disjunction(&mut self, parts: &mut Vec<Part<'a>>) -> Result<(), Wrong> {
        self.gap();
        let enclosed = self.take(b'(');
        loop {
            self.literal(parts)?;
            self.gap();
            if !self.take(b'|') {
                break;
            }
        }
        if enclosed { self.expect(b')') } else { Ok(()) }
    }

    fn literal(&mut self, parts: &mut Vec<Part<'a>>) -> Result<(), Wrong> {
        self.gap();
        let negative = self.take(b'~');
        self.gap();
        let name = self.name(u8::is_ascii_lowercase)?;
        parts.push(Part::Literal { negative, name, arity: 0 });
        self.arguments(parts)
    }

    /// The arguments of the symbol just read, if it has any: the symbols still open stand on a stack of places.
    fn arguments(&mut self, parts: &mut Vec<Part<'a>>) -> Result<(), Wrong> {
        let mut open = Vec::new();
        loop {
            self.gap();
            let applied = !matches!(parts.last(), Some(Part::Variable(_))) && self.take(b'(');
            if applied {
                open.push(parts.len() - 1);
            } else {
                while !open.is_empty() && self.take(b')') {
                    open.pop();
                    self.gap();
                }
            }
            let Some(&symbol) = open.last() else {
                return Ok(());
            };
            if !applied && !self.take(b',') {
                return Err(self.place);
            }
            count_argument(&mut parts[symbol]);
            self.gap();
            parts.push(self.term()?);
        }
    }

    fn term(&mut self) -> Result<Part<'a>, Wrong> {
        if self.peek().is_some_and(|byte| byte.is_ascii_uppercase()) {
            return Ok(Part::Variable(self.name(u8::is_ascii_uppercase)?));
        }
        Ok(Part::Function { name: self.name(u8::is_ascii_lowercase)?, arity: 0 })
    }
}

fn count_argument(part: &mut Part) {
    match part {
        Part::Literal { arity, .. } | Part::Function { arity, .. } => *arity += 1,
        Part::Variable(_) => unreachable!("a variable is never open"),
    }
}
