//! The proved engine from safe Rust. The calls have no precondition: any lengths and any words are answered,
//! so all that this wrapper adds is the room for the work words and slices of what was written.

/// What comes back; numbers not named for a status are 0 (document 01, "What comes back").
#[repr(C)]
#[derive(Clone, Copy, Debug, PartialEq, Eq)]
pub struct Outcome {
    pub status: u32,
    pub place: u32,
    pub proof: u32,
    pub disjuncts: u32,
    pub answer: u32,
    pub tries: u32,
}

/// A slimmer file (order 12): its words, and its clauses, which is how many old numbers are written.
#[repr(C)]
#[derive(Clone, Copy, Debug, PartialEq, Eq)]
pub struct Slimmed {
    pub status: u32,
    pub place: u32,
    pub words: u32,
    pub clauses: u32,
}

/// What the matinee desk reports (order 14): status 0, 11 or 24, and 1 for each slot that is reported.
#[repr(C)]
#[derive(Clone, Copy, Debug, PartialEq, Eq)]
pub struct Desk {
    pub status: u32,
    pub matinee: u32,
    pub evening: u32,
    pub either: u32,
}

/// The smallest bound (order 6): 0 unless the status is 0 or 16; the tries are summed over the bounds.
#[repr(C)]
#[derive(Clone, Copy, Debug, PartialEq, Eq)]
pub struct Least {
    pub bound: u32,
    pub outcome: Outcome,
}

/// A file read from clause text (order 1), and its words.
#[repr(C)]
#[derive(Clone, Copy, Debug, PartialEq, Eq)]
pub struct TextRead {
    pub status: u32,
    pub place: u32,
    pub words: u32,
}

/// A text written, of a file (order 2) or of the clauses behind a proof (order 7), and its bytes.
#[repr(C)]
#[derive(Clone, Copy, Debug, PartialEq, Eq)]
pub struct TextWritten {
    pub status: u32,
    pub place: u32,
    pub bytes: u32,
}

/// A season report (order 13): how many questions came to each result, and the sum of their tries.
#[repr(C)]
#[derive(Clone, Copy, Debug, Default, PartialEq, Eq)]
pub struct Season {
    pub status: u32,
    pub place: u32,
    pub definite: u32,
    pub indefinite: u32,
    pub none: u32,
    pub ran_out: u32,
    pub too_long: u32,
    pub refused: u32,
    pub tries: u64,
}

pub const WORK_WORDS: usize = 16_384;
pub const PROOF_WORDS: usize = 199;
pub const RESTART_PROOF_WORDS: usize = 231;

mod archive {
    use super::{Desk, Least, Outcome, Season, Slimmed, TextRead, TextWritten};

    extern "C" {
        #[allow(clippy::too_many_arguments)]
        pub fn hukolearu_search(
            file: *const u32, file_words: usize, bound: u32, budget: u32, proof: *mut u32, proof_words: usize,
            answer: *mut u32, answer_words: usize, work: *mut u32, work_words: usize,
        ) -> Outcome;
        pub fn hukolearu_check_proof(
            file: *const u32, file_words: usize, bound: u32, offered: *const u32, offered_words: usize,
            answer: *mut u32, answer_words: usize, work: *mut u32, work_words: usize,
        ) -> Outcome;
        #[allow(clippy::too_many_arguments)]
        pub fn hukolearu_education_search(
            file: *const u32, file_words: usize, bound: u32, budget: u32, proof: *mut u32, proof_words: usize,
            answer: *mut u32, answer_words: usize, work: *mut u32, work_words: usize,
        ) -> Outcome;
        #[allow(clippy::too_many_arguments)]
        pub fn hukolearu_education_check(
            file: *const u32, file_words: usize, bound: u32, offered: *const u32, offered_words: usize,
            answer: *mut u32, answer_words: usize, work: *mut u32, work_words: usize,
        ) -> Outcome;
        #[allow(clippy::too_many_arguments)]
        pub fn hukolearu_restart_search(
            file: *const u32, file_words: usize, bound: u32, budget: u32, proof: *mut u32, proof_words: usize,
            answer: *mut u32, answer_words: usize, work: *mut u32, work_words: usize,
        ) -> Outcome;
        #[allow(clippy::too_many_arguments)]
        pub fn hukolearu_restart_check(
            file: *const u32, file_words: usize, bound: u32, offered: *const u32, offered_words: usize,
            answer: *mut u32, answer_words: usize, work: *mut u32, work_words: usize,
        ) -> Outcome;
        #[allow(clippy::too_many_arguments)]
        pub fn hukolearu_restart_education_search(
            file: *const u32, file_words: usize, bound: u32, budget: u32, proof: *mut u32, proof_words: usize,
            answer: *mut u32, answer_words: usize, work: *mut u32, work_words: usize,
        ) -> Outcome;
        #[allow(clippy::too_many_arguments)]
        pub fn hukolearu_restart_education_check(
            file: *const u32, file_words: usize, bound: u32, offered: *const u32, offered_words: usize,
            answer: *mut u32, answer_words: usize, work: *mut u32, work_words: usize,
        ) -> Outcome;
        pub fn hukolearu_slim(
            file: *const u32, file_words: usize, slimmer: *mut u32, slimmer_words: usize, numbers: *mut u32, numbers_words: usize,
        ) -> Slimmed;
        pub fn hukolearu_ask_desk(
            records: *const u32, records_words: usize, day: u32, house: u32, for_matinee: u32, for_evening: u32, for_any: u32,
        ) -> Desk;
        #[allow(clippy::too_many_arguments)]
        pub fn hukolearu_smallest(
            file: *const u32, file_words: usize, limit: u32, budget: u32, proof: *mut u32, proof_words: usize,
            answer: *mut u32, answer_words: usize, work: *mut u32, work_words: usize,
        ) -> Least;
        pub fn hukolearu_read(text: *const u8, text_bytes: usize, file: *mut u32, file_words: usize) -> TextRead;
        pub fn hukolearu_write(file: *const u32, file_words: usize, text: *mut u8, text_bytes: usize) -> TextWritten;
        #[allow(clippy::too_many_arguments)]
        pub fn hukolearu_listing(
            file: *const u32, file_words: usize, bound: u32, offered: *const u32, offered_words: usize,
            listing: *mut u8, listing_bytes: usize, work: *mut u32, work_words: usize,
        ) -> TextWritten;
        #[allow(clippy::too_many_arguments)]
        pub fn hukolearu_season(
            table: *const u32, table_words: usize, entries: *const u32, entries_words: usize, list: *const u32, list_words: usize,
            proof: *mut u32, proof_words: usize, answer: *mut u32, answer_words: usize, work: *mut u32, work_words: usize,
        ) -> Season;
    }
}

/// Searches with lent buffers, exactly as document 01 has it.
pub fn search(file: &[u32], bound: u32, budget: u32, proof: &mut [u32], answer: &mut [u32], work: &mut [u32]) -> Outcome {
    // SAFETY: the slices are valid for their lengths and do not overlap, and the call reads and writes within them (proved).
    unsafe {
        archive::hukolearu_search(
            file.as_ptr(), file.len(), bound, budget, proof.as_mut_ptr(), proof.len(),
            answer.as_mut_ptr(), answer.len(), work.as_mut_ptr(), work.len(),
        )
    }
}

/// Checks an offered proof with lent buffers.
pub fn check_proof(file: &[u32], bound: u32, offered: &[u32], answer: &mut [u32], work: &mut [u32]) -> Outcome {
    // SAFETY: as for `search`.
    unsafe {
        archive::hukolearu_check_proof(
            file.as_ptr(), file.len(), bound, offered.as_ptr(), offered.len(),
            answer.as_mut_ptr(), answer.len(), work.as_mut_ptr(), work.len(),
        )
    }
}

/// Education's search: it passes over restricted clauses and numbers the others from 0.
pub fn education_search(file: &[u32], bound: u32, budget: u32, proof: &mut [u32], answer: &mut [u32], work: &mut [u32]) -> Outcome {
    // SAFETY: as for `search`.
    unsafe {
        archive::hukolearu_education_search(
            file.as_ptr(), file.len(), bound, budget, proof.as_mut_ptr(), proof.len(),
            answer.as_mut_ptr(), answer.len(), work.as_mut_ptr(), work.len(),
        )
    }
}

/// Education's checker, for a proof whose numbers are those among the unrestricted clauses.
pub fn education_check(file: &[u32], bound: u32, offered: &[u32], answer: &mut [u32], work: &mut [u32]) -> Outcome {
    // SAFETY: as for `search`.
    unsafe {
        archive::hukolearu_education_check(
            file.as_ptr(), file.len(), bound, offered.as_ptr(), offered.len(),
            answer.as_mut_ptr(), answer.len(), work.as_mut_ptr(), work.len(),
        )
    }
}

/// The search of rules read one way: clauses are entered by positive literals alone, and a positive leaf may be restarted. It wants
/// `RESTART_PROOF_WORDS` for its proof.
pub fn restart_search(file: &[u32], bound: u32, budget: u32, proof: &mut [u32], answer: &mut [u32], work: &mut [u32]) -> Outcome {
    // SAFETY: as for `search`.
    unsafe {
        archive::hukolearu_restart_search(
            file.as_ptr(), file.len(), bound, budget, proof.as_mut_ptr(), proof.len(),
            answer.as_mut_ptr(), answer.len(), work.as_mut_ptr(), work.len(),
        )
    }
}

/// The checker of rules read one way; 80000000 is a restart.
pub fn restart_check(file: &[u32], bound: u32, offered: &[u32], answer: &mut [u32], work: &mut [u32]) -> Outcome {
    // SAFETY: as for `search`.
    unsafe {
        archive::hukolearu_restart_check(
            file.as_ptr(), file.len(), bound, offered.as_ptr(), offered.len(),
            answer.as_mut_ptr(), answer.len(), work.as_mut_ptr(), work.len(),
        )
    }
}

/// Education's search of rules read one way.
pub fn restart_education_search(
    file: &[u32], bound: u32, budget: u32, proof: &mut [u32], answer: &mut [u32], work: &mut [u32],
) -> Outcome {
    // SAFETY: as for `search`.
    unsafe {
        archive::hukolearu_restart_education_search(
            file.as_ptr(), file.len(), bound, budget, proof.as_mut_ptr(), proof.len(),
            answer.as_mut_ptr(), answer.len(), work.as_mut_ptr(), work.len(),
        )
    }
}

/// Education's checker of rules read one way.
pub fn restart_education_check(file: &[u32], bound: u32, offered: &[u32], answer: &mut [u32], work: &mut [u32]) -> Outcome {
    // SAFETY: as for `search`.
    unsafe {
        archive::hukolearu_restart_education_check(
            file.as_ptr(), file.len(), bound, offered.as_ptr(), offered.len(),
            answer.as_mut_ptr(), answer.len(), work.as_mut_ptr(), work.len(),
        )
    }
}

/// Writes a slimmer file without repeats and dead clauses, and the old number of each clause that it keeps.
pub fn slim(file: &[u32], slimmer: &mut [u32], numbers: &mut [u32]) -> Slimmed {
    // SAFETY: as for `search`.
    unsafe {
        archive::hukolearu_slim(
            file.as_ptr(), file.len(), slimmer.as_mut_ptr(), slimmer.len(), numbers.as_mut_ptr(), numbers.len(),
        )
    }
}

/// Asks the matinee desk: three words a record (day, house, slot 1 matinee, 2 evening, 3 either), a budget for each question.
pub fn ask_desk(records: &[u32], day: u32, house: u32, for_matinee: u32, for_evening: u32, for_any: u32) -> Desk {
    // SAFETY: as for `search`; the records are only read.
    unsafe {
        archive::hukolearu_ask_desk(records.as_ptr(), records.len(), day, house, for_matinee, for_evening, for_any)
    }
}

/// Looks for the least bound up to a limit at which there is a proof, with lent buffers.
pub fn smallest(file: &[u32], limit: u32, budget: u32, proof: &mut [u32], answer: &mut [u32], work: &mut [u32]) -> Least {
    // SAFETY: as for `search`.
    unsafe {
        archive::hukolearu_smallest(
            file.as_ptr(), file.len(), limit, budget, proof.as_mut_ptr(), proof.len(),
            answer.as_mut_ptr(), answer.len(), work.as_mut_ptr(), work.len(),
        )
    }
}

/// Reads TPTP clause text into a question file.
pub fn read(text: &[u8], file: &mut [u32]) -> TextRead {
    // SAFETY: as for `search`.
    unsafe { archive::hukolearu_read(text.as_ptr(), text.len(), file.as_mut_ptr(), file.len()) }
}

/// Writes the text of a question file, one clause a line.
pub fn write(file: &[u32], text: &mut [u8]) -> TextWritten {
    // SAFETY: as for `search`.
    unsafe { archive::hukolearu_write(file.as_ptr(), file.len(), text.as_mut_ptr(), text.len()) }
}

/// Lists the clauses behind an accepted proof, each with the number of its copies.
pub fn listing(file: &[u32], bound: u32, offered: &[u32], listing: &mut [u8], work: &mut [u32]) -> TextWritten {
    // SAFETY: as for `search`.
    unsafe {
        archive::hukolearu_listing(
            file.as_ptr(), file.len(), bound, offered.as_ptr(), offered.len(),
            listing.as_mut_ptr(), listing.len(), work.as_mut_ptr(), work.len(),
        )
    }
}

/// Puts many questions to one table, each in the place of its own. Four words an entry: the place and length of a question's words in
/// the list, a bound and a budget.
pub fn season(table: &[u32], entries: &[u32], list: &[u32], proof: &mut [u32], answer: &mut [u32], work: &mut [u32]) -> Season {
    // SAFETY: as for `search`.
    unsafe {
        archive::hukolearu_season(
            table.as_ptr(), table.len(), entries.as_ptr(), entries.len(), list.as_ptr(), list.len(),
            proof.as_mut_ptr(), proof.len(), answer.as_mut_ptr(), answer.len(), work.as_mut_ptr(), work.len(),
        )
    }
}

#[cfg(test)]
mod tests {
    use super::*;

    const CASE_1: [u32; 15] = [
        0xC0000602, 0x80002001, 0x40000001, 0x40000002, 0x80002001, 0x40000001, 0x40000003, 0xC0000309, 0x8000A001,
        0x40000001, 0x00000000, 7, 2, 0x1AE33758, 11,
    ];

    #[test]
    fn case_1_is_found_and_accepted() {
        let (mut proof, mut answer, mut work) = ([9; PROOF_WORDS], [9; 8], vec![9; WORK_WORDS + 2]);
        let found = search(&CASE_1, 2, 3, &mut proof, &mut answer, &mut work);
        assert_eq!(found, Outcome { status: 0, place: 0, proof: 2, disjuncts: 2, answer: 6, tries: 3 });
        assert_eq!(proof[..3], [0x40000000, 0x40000001, 9]);
        assert_eq!(answer, [0x80002001, 0x40000001, 0x40000002, 0x80002001, 0x40000001, 0x40000003, 9, 9]);
        assert!(work[..WORK_WORDS].iter().all(|&word| word == 0) && work[WORK_WORDS..] == [9, 9]);
        let accepted = check_proof(&CASE_1, 2, &proof[..2], &mut answer, &mut work);
        assert_eq!(accepted, Outcome { tries: 0, ..found });
    }

    #[test]
    fn a_clash_is_told_from_a_circle() {
        // document 01's cases 6 and 5: two constants differ; a term swallows itself
        let clash = [
            0xC0000401, 0x80003001, 0x40000001, 0x40000002, 0x40000003, 0xC0000401, 0x8000B001, 0x40000001, 0x40000002, 0x40000004, 5, 2,
            0x83223852, 10,
        ];
        let circle = [
            0xC0000409, 0x80002001, 0x00000000, 0x40001001, 0x00000000, 0xC0000309, 0x8000A001, 0x00000000, 0x00000000, 5, 2, 0x31FE5519, 9,
        ];
        let refusal = |file: &[u32]| {
            let refused = check_proof(file, 1, &[0x40000000], &mut [0; 8], &mut vec![0; WORK_WORDS]);
            assert_eq!(refused, Outcome { status: refused.status, place: 0, proof: 0, disjuncts: 0, answer: 0, tries: 0 });
            refused.status
        };
        assert_eq!((refusal(&clash), refusal(&circle)), (14, 20));
    }

    fn fingerprint(body: &[u32]) -> u32 {
        body.iter().flat_map(|word| word.to_le_bytes()).fold(0x811C9DC5, |hash, byte| (hash ^ u32::from(byte)).wrapping_mul(0x01000193))
    }

    #[test]
    fn education_passes_over_restricted_clauses() {
        // p(1), restricted; p(2); ask p(X)
        let mut file = vec![0xC0010201, 0x80001001, 0x40000001, 0xC0000201, 0x80001001, 0x40000002, 0xC0000209, 0x80009001, 0x00000000];
        file.extend([6, 3, fingerprint(&file), 9]);
        let (mut proof, mut answer, mut work) = ([9; PROOF_WORDS], [9; 2], vec![9; WORK_WORDS]);
        let found = Outcome { status: 0, place: 0, proof: 1, disjuncts: 1, answer: 2, tries: 1 };
        assert_eq!(search(&file, 1, 1, &mut proof, &mut answer, &mut work), found);
        assert_eq!((proof[0], answer), (0x40000000, [0x80001001, 0x40000001]));
        assert_eq!(education_search(&file, 1, 1, &mut proof, &mut answer, &mut work), found);
        assert_eq!((proof[0], answer), (0x40000000, [0x80001001, 0x40000002]));
        assert!(work.iter().all(|&word| word == 0));
        assert_eq!(education_check(&file, 1, &proof[..1], &mut answer, &mut work), Outcome { tries: 0, ..found });
        // past the two unrestricted clauses there is none
        assert_eq!(education_check(&file, 1, &[0x40000002], &mut answer, &mut work).status, 13);
        file[6] |= 1 << 16;
        file[11] = fingerprint(&file[..9]);
        assert_eq!(search(&file, 1, 1, &mut proof, &mut answer, &mut work).status, 21);
        assert_eq!(education_search(&file, 1, 1, &mut proof, &mut answer, &mut work).status, 21);
        assert_eq!(education_check(&file, 1, &[], &mut answer, &mut work).status, 21);
    }

    #[test]
    fn rules_read_one_way_restart_a_positive_leaf() {
        let (mut proof, mut answer, mut work) = ([9; RESTART_PROOF_WORDS], [9; 6], vec![9; WORK_WORDS]);
        let found = Outcome { status: 0, place: 0, proof: 3, disjuncts: 2, answer: 6, tries: 4 };
        let steps = [0x40000000, 0x80000000, 0x00000001];
        for desk in [restart_search, restart_education_search] {
            assert_eq!(desk(&CASE_1, 2, 4, &mut proof, &mut answer, &mut work), found);
            assert_eq!((&proof[..3], proof[3]), (&steps[..], 9));
            assert_eq!(answer, [0x80002001, 0x40000001, 0x40000002, 0x80002001, 0x40000001, 0x40000003]);
            assert_eq!(desk(&CASE_1, 2, 3, &mut proof, &mut answer, &mut work).status, 11);
            assert_eq!(desk(&CASE_1, 2, 4, &mut proof[1..], &mut answer, &mut work).status, 2);
        }
        for desk in [restart_check, restart_education_check] {
            assert_eq!(desk(&CASE_1, 2, &steps, &mut answer, &mut work), Outcome { tries: 0, ..found });
            // a restart past the bound, of a negative leaf; an extension of a positive one
            assert_eq!(desk(&CASE_1, 1, &steps, &mut answer, &mut work).status, 13);
            assert_eq!(desk(&CASE_1, 2, &steps[1..], &mut answer, &mut work).status, 13);
            assert_eq!(desk(&CASE_1, 2, &[0x40000000, 0x40000001], &mut answer, &mut work).status, 13);
        }
        // for the base it is no step
        assert_eq!(check_proof(&CASE_1, 2, &steps, &mut answer, &mut work).status, 12);
        // p; not p; ask p: the second clause has no positive literal
        let mut file = vec![0xC0000101, 0x80000001, 0xC0000101, 0x80008001, 0xC0000101, 0x80008001];
        file.extend([4, 3, fingerprint(&file), 6]);
        let refused = restart_search(&file, 1, 9, &mut proof, &mut answer, &mut work);
        assert_eq!(refused, Outcome { status: 22, place: 2, proof: 0, disjuncts: 0, answer: 0, tries: 0 });
        assert_eq!(search(&file, 1, 9, &mut proof, &mut answer, &mut work).status, 0);
    }

    #[test]
    fn a_dead_clause_and_a_repeat_are_dropped() {
        // p or q (dead: no literal ~ q); p; p; ask p
        let mut file = vec![0xC0000202, 0x80000001, 0x80000002, 0xC0000101, 0x80000001, 0xC0000101, 0x80000001, 0xC0000101, 0x80008001];
        file.extend([7, 4, fingerprint(&file), 9]);
        let (mut slimmer, mut numbers) = ([9; 9], [9; 3]);
        assert_eq!(slim(&file, &mut slimmer, &mut numbers), Slimmed { status: 0, place: 0, words: 8, clauses: 2 });
        let body = [0xC0000101, 0x80000001, 0xC0000101, 0x80008001];
        assert_eq!(slimmer, [body[0], body[1], body[2], body[3], 2, 2, fingerprint(&body), 4, 9]);
        assert_eq!(numbers, [1, 3, 9]);
        assert_eq!(slim(&file, &mut slimmer[..7], &mut numbers).status, 16);
    }

    #[test]
    fn the_desk_keeps_matinee_and_evening_apart() {
        let ample = u32::MAX;
        let says = |records: &[u32]| ask_desk(records, 7, 3, ample, ample, ample);
        assert_eq!(says(&[7, 3, 1, 7, 3, 2]), Desk { status: 0, matinee: 1, evening: 1, either: 0 });
        assert_eq!(says(&[7, 3, 3, 7, 3, 2]), Desk { status: 0, matinee: 0, evening: 1, either: 0 });
        assert_eq!(says(&[7, 3, 3]), Desk { status: 0, matinee: 0, evening: 0, either: 1 });
        assert_eq!(says(&[7, 3]), Desk { status: 24, matinee: 0, evening: 0, either: 0 });
        assert_eq!(ask_desk(&[7, 3, 3], 7, 3, 0, 0, 0).status, 11);
    }

    #[test]
    fn the_smallest_bound_of_case_1_is_2() {
        let (mut proof, mut answer, mut work) = ([9; PROOF_WORDS], [9; 6], vec![9; WORK_WORDS]);
        let found = Outcome { status: 0, place: 0, proof: 2, disjuncts: 2, answer: 6, tries: 7 };
        assert_eq!(smallest(&CASE_1, 32, 7, &mut proof, &mut answer, &mut work), Least { bound: 2, outcome: found });
        let out = Outcome { status: 11, place: 0, proof: 0, disjuncts: 0, answer: 0, tries: 6 };
        assert_eq!(smallest(&CASE_1, 32, 6, &mut proof, &mut answer, &mut work), Least { bound: 0, outcome: out });
    }

    #[test]
    fn clause_text_is_read_or_its_first_wrong_byte_told() {
        let mut file = [9; 16];
        let text = b"cnf(bill,axiom,(at(e,mat) | at(e,eve))).\r\ncnf(asked,negated_conjecture,~ at(e,X)).";
        assert_eq!(read(text, &mut file), TextRead { status: 0, place: 0, words: 15 });
        let mut proof = [0; PROOF_WORDS];
        let found = search(&file[..15], 2, 3, &mut proof, &mut [0; 6], &mut vec![0; WORK_WORDS]);
        assert_eq!((found.status, found.disjuncts, file[15]), (0, 2, 9));
        assert_eq!(read(b"cnf(a,axiomx", &mut file), TextRead { status: 17, place: 11, words: 0 });
        assert_eq!(read(b"% no question", &mut file), TextRead { status: 18, place: 0, words: 0 });
        assert_eq!(read(text, &mut file[..14]), TextRead { status: 19, place: 0, words: 0 });
    }

    #[test]
    fn a_file_is_written_as_text_or_nothing_is() {
        let lines = b"cnf(c0,axiom,(p1(f1,f2) | p1(f1,f3))).\ncnf(c1,negated_conjecture,(~ p1(f1,X0))).\n";
        let (n, mut text) = (lines.len(), [9; 100]);
        assert_eq!(write(&CASE_1, &mut text[..n - 1]), TextWritten { status: 16, place: 0, bytes: 0 });
        assert_eq!(write(&CASE_1[..14], &mut text), TextWritten { status: 5, place: 0, bytes: 0 });
        assert_eq!(text, [9; 100]);
        assert_eq!(write(&CASE_1, &mut text), TextWritten { status: 0, place: 0, bytes: n as u32 });
        assert_eq!((&text[..n], text[n]), (&lines[..], 9));
    }

    #[test]
    fn the_clauses_behind_a_proof_are_listed_or_nothing_is() {
        let lines = b"0 1 cnf(c0,axiom,(p1(f1,f2) | p1(f1,f3))).\n1 2 cnf(c1,negated_conjecture,(~ p1(f1,X0))).\n";
        let steps = [0x4000_0000, 0x4000_0001];
        let (n, mut text, mut work) = (lines.len(), [9; 100], vec![9; WORK_WORDS]);
        assert_eq!(listing(&CASE_1, 2, &steps, &mut text[..n - 1], &mut work), TextWritten { status: 16, place: 0, bytes: 0 });
        assert_eq!(listing(&CASE_1, 2, &steps[..1], &mut text, &mut work), TextWritten { status: 15, place: 1, bytes: 0 });
        assert_eq!((text, work.iter().all(|w| *w == 0)), ([9; 100], true));
        assert_eq!(listing(&CASE_1, 2, &steps, &mut text, &mut work), TextWritten { status: 0, place: 0, bytes: n as u32 });
        assert_eq!((&text[..n], text[n]), (&lines[..], 9));
    }

    #[test]
    fn a_season_counts_each_question_once() {
        let (mut proof, mut answer, mut work) = ([9; PROOF_WORDS], [9; 7], vec![9; WORK_WORDS + 1]);
        let question = [0xC0000309, 0x8000A001, 0x40000001, 0x00000000];
        // case 1, case 2, case 4, a bound over 32, past the list, no words
        let entries = [0, 4, 2, 3, 0, 4, 1, 9, 0, 4, 2, 2, 0, 4, 33, 9, 1, 4, 2, 3, 0, 0, 2, 3];
        let report = season(&CASE_1, &entries, &question, &mut proof, &mut answer, &mut work);
        assert_eq!(report, Season { indefinite: 1, none: 1, ran_out: 1, refused: 3, tries: 3 + 4 + 2, ..Season::default() });
        assert_eq!((proof[..3].to_vec(), answer[5..].to_vec()), (vec![0x40000000, 0x40000001, 9], vec![0x40000003, 9]));
        assert!(work[..WORK_WORDS].iter().all(|&word| word == 0) && work[WORK_WORDS] == 9);
        let longer = season(&CASE_1, &entries[..4], &question, &mut proof, &mut answer[..5], &mut work);
        assert_eq!(longer, Season { too_long: 1, tries: 3, ..Season::default() });
        assert_eq!(season(&CASE_1, &entries[..3], &question, &mut proof, &mut answer, &mut work).status, 23);
        assert_eq!(season(&CASE_1, &vec![0; 4 * 4097], &question, &mut proof, &mut answer, &mut work).status, 23);
        work[7] = 9;
        assert_eq!(season(&CASE_1, &[], &question, &mut proof, &mut answer, &mut work), Season::default());
        assert_eq!(work[7], 0);
    }

    #[test]
    fn short_buffers_are_refused_and_left_alone() {
        let (mut proof, mut answer, mut work) = ([9; PROOF_WORDS], [9; 5], vec![9; WORK_WORDS]);
        assert_eq!(search(&CASE_1, 2, 3, &mut proof[..198], &mut answer, &mut work).status, 2);
        assert_eq!(search(&CASE_1, 2, 3, &mut proof, &mut answer, &mut work[1..]).status, 1);
        assert_eq!(search(&CASE_1, 2, 3, &mut proof, &mut answer, &mut work), Outcome { status: 16, place: 0, proof: 0, disjuncts: 0, answer: 0, tries: 3 });
        assert_eq!((proof, answer), ([9; PROOF_WORDS], [9; 5]));
    }
}
