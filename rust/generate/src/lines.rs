//! Requests as lines of the protocol.

use crate::random::Random;
use engine::{Asker, Desk, Reading};

/// How words are spelt: 1 to 8 digits of either case are permitted.
#[derive(Clone, Copy)]
pub enum Spelling {
    Full,
    Short,
    Mixed,
}

impl Spelling {
    pub fn any(random: &mut Random) -> Spelling {
        random.pick(&[Spelling::Full, Spelling::Full, Spelling::Full, Spelling::Short, Spelling::Mixed])
    }

    fn word(self, word: u32) -> String {
        match self {
            Spelling::Full => format!("{word:08X}"),
            Spelling::Short => format!("{word:x}"),
            Spelling::Mixed if word & 1 == 0 => format!("{word:X}"),
            Spelling::Mixed => format!("{word:08x}"),
        }
    }

    pub fn words(self, words: &[u32]) -> String {
        if words.is_empty() {
            return "-".to_owned();
        }
        words.iter().map(|&word| self.word(word)).collect::<Vec<_>>().join(" ")
    }
}

#[derive(Clone, Debug)]
pub struct Search {
    pub bound: u32,
    pub budget: u32,
    pub work: usize,
    pub proof: usize,
    pub answer: usize,
    pub file: Vec<u32>,
}

#[derive(Clone, Debug)]
pub struct Check {
    pub bound: u32,
    pub work: usize,
    pub answer: usize,
    pub offered: Vec<u32>,
    pub file: Vec<u32>,
}

impl Search {
    pub fn ordinary(file: &[u32], bound: u32, budget: u32) -> Search {
        Search { bound, budget, work: 16_384, proof: 199, answer: 4_096, file: file.to_vec() }
    }

    pub fn line(&self, spelling: Spelling) -> String {
        self.line_for(Asker::BASE, spelling)
    }

    pub fn line_for(&self, asker: impl Into<Asker>, spelling: Spelling) -> String {
        let Search { bound, budget, work, proof, answer, file } = self;
        format!("{}search {bound} {budget} {work} {proof} {answer} / {}", prefix(asker.into()), spelling.words(file))
    }
}

impl Check {
    pub fn ordinary(file: &[u32], offered: &[u32], bound: u32) -> Check {
        Check { bound, work: 16_384, answer: 4_096, offered: offered.to_vec(), file: file.to_vec() }
    }

    pub fn line(&self, spelling: Spelling) -> String {
        self.line_for(Asker::BASE, spelling)
    }

    pub fn line_for(&self, asker: impl Into<Asker>, spelling: Spelling) -> String {
        let Check { bound, work, answer, offered, file } = self;
        let [offered, file] = [offered, file].map(|words| spelling.words(words));
        format!("{}check {bound} {work} {answer} / {offered} / {file}", prefix(asker.into()))
    }
}

fn prefix(asker: Asker) -> &'static str {
    match (asker.reading, asker.desk) {
        (Reading::Base, Desk::Collections) => "",
        (Reading::Base, Desk::Education) => "edu-",
        (Reading::Restart, Desk::Collections) => "restart-",
        (Reading::Restart, Desk::Education) => "restart-edu-",
    }
}

pub fn lookup(file: &[u32], number: u32, spelling: Spelling) -> String {
    format!("lookup {number} / {}", spelling.words(file))
}
