//! Order 8 in the other calls of document 02: they see all, and refuse a restricted question.

use engine::file::write;
use engine::syntax::Table;
use engine::{Status, WORK_WORDS};
use orders::listing::listing;
use orders::season::{Asked, Season, season};
use orders::slim::slim;
use orders::tptp::read;
use orders::tptp::writer::{self, text};

fn table(text: &str) -> Table {
    notation::table(text).unwrap()
}

#[test]
fn the_text_carries_no_mark_so_a_file_read_back_has_all_marks_off() {
    let (marked, open) = (table("!p(a) | q\n? p(X)"), table("p(a) | q\n? p(X)"));
    assert_eq!(text(&marked), text(&open));
    let mut back = [0; 11];
    assert_eq!(read(text(&marked).as_bytes(), &mut back).words, 11);
    assert_eq!((back[0], write(&marked)[0]), (0xC000_0302, 0xC001_0302));
}

#[test]
fn the_mark_counts_among_the_words_of_a_slimmer_file() {
    let file = write(&table("p\n!p\n!p\np\n!q\n? p"));
    let (mut slimmer, mut numbers) = ([0; 10], [0; 3]);
    assert_eq!(slim(&file, &mut slimmer, &mut numbers).status, Status::Proved);
    assert_eq!(numbers, [0, 1, 5]);
    assert_eq!(slimmer[..6], [0xC000_0101, 0x8000_0001, 0xC001_0101, 0x8000_0001, 0xC000_0101, 0x8000_8001]);
}

#[test]
fn a_season_sees_all_and_counts_a_restricted_question_as_refused() {
    let table = write(&table("!p(a)\n? p(X)"));
    let question = [0xC000_0209, 0x8000_9001, 0, 0xC001_0209, 0x8000_9001, 0];
    let asked = Asked { table: &table, entries: &[0, 3, 1, 1, 3, 3, 1, 1], list: &question };
    let report = season(asked, &mut [0; WORK_WORDS], &mut [0; 199], &mut [0; 9], engine::search);
    assert_eq!(report, Season { definite: 1, refused: 1, tries: 1, ..Season::default() });
}

#[test]
fn a_restricted_question_is_refused_before_anything_of_the_call() {
    let file = write(&table("p(a)\n!? p(X)"));
    assert_eq!(slim(&file, &mut [], &mut []).status, Status::RestrictedQuestion);
    assert_eq!(writer::write(&file, &mut []).status, Status::RestrictedQuestion);
    assert_eq!(listing(&file, 1, &[0], &mut [0; WORK_WORDS], &mut []).status, Status::RestrictedQuestion);
    let asked = Asked { table: &file, entries: &[1], list: &[] };
    let report = season(asked, &mut [0; WORK_WORDS], &mut [0; 199], &mut [], engine::search);
    assert_eq!(report, Season { status: 21, ..Season::default() });
}
