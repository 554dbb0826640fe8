//! The lent work words and what stands where in them; and reading and writing words with or without the checks of every index.

use engine::WORK_WORDS;

/// Copies are numbered from 1, the start, so that no variable is number 0.
pub const COPIES: usize = 34;
pub const VARIABLES: usize = 16 * COPIES;
const MOST_STEPS: usize = 199;

/// What each variable is bound to, 16 for each copy; 0 where it is free.
pub const BINDINGS: usize = 0;
/// Bound variables, oldest first.
pub const TRAIL: usize = BINDINGS + VARIABLES;
/// Where the copies' clause words stand in the file.
pub const STARTS: usize = TRAIL + VARIABLES;
/// For each copy: its parent leaf, the literal entered, the open leaf after its last, its depth.
pub const HUNG: usize = STARTS + COPIES;
pub const HUNG_WORDS: usize = 4;
/// The parent leaf's arguments, four for each copy, as they were when the copy was made.
pub const ARGUMENTS: usize = HUNG + HUNG_WORDS * COPIES;
/// Their symbols, as far as they were known.
pub const TOPS: usize = ARGUMENTS + 4 * COPIES;
/// For each copy a bit for each slot of a literal on the branch above its leaves.
pub const ABOVE: usize = TOPS + 4 * COPIES;
/// For each copy and slot the nearest copy whose parent leaf is in the slot: 16 bytes a copy.
pub const NEAREST: usize = ABOVE + COPIES;
pub const NEAREST_WORDS: usize = 4;
/// Heights, or extensions with their literal.
pub const STEPS: usize = NEAREST + NEAREST_WORDS * COPIES;
/// Variables looked into in a thorough comparison, or numbered in the answer.
pub const SEEN: usize = STEPS + MOST_STEPS + 1;
/// Links between terms made equal in a thorough comparison, or the way back through the answer's terms.
pub const LINKS: usize = SEEN + VARIABLES;
pub const LINKS_WORDS: usize = 256 * COPIES;
/// How many variables are bound.
pub const BOUND_COUNT: usize = LINKS + LINKS_WORDS;
/// How many more terms a naive comparison may look into.
pub const ALLOWANCE: usize = BOUND_COUNT + 1;
/// Whether a comparison met a variable within the term that it should equal.
pub const CIRCLE: usize = ALLOWANCE + 1;
const END: usize = CIRCLE + 1;

const _: () = assert!(END <= WORK_WORDS);

/// Everything but the file and its index stands in these words, so that one address reaches it all.
pub type Work = [u32; WORK_WORDS];

#[cfg(not(feature = "unchecked"))]
mod access {
    #[inline(always)]
    pub fn at<T: Copy>(items: &[T], place: usize) -> T {
        items[place]
    }

    #[inline(always)]
    pub fn item<T>(items: &[T], place: usize) -> &T {
        &items[place]
    }

    #[inline(always)]
    pub fn load(work: &super::Work, place: usize) -> u32 {
        work[place]
    }

    #[inline(always)]
    pub fn load_many<const COUNT: usize>(work: &super::Work, place: usize) -> [u32; COUNT] {
        *work[place..].first_chunk().expect("so many words from here on")
    }

    #[inline(always)]
    pub fn store(work: &mut super::Work, place: usize, word: u32) {
        work[place] = word;
    }

    #[inline(always)]
    pub fn store_many<const COUNT: usize>(work: &mut super::Work, place: usize, words: [u32; COUNT]) {
        work[place..place + COUNT].copy_from_slice(&words);
    }
}

#[cfg(feature = "unchecked")]
mod access {
    // SAFETY, for all of these: every place comes from the accepted file, or from a count kept within its region.

    #[inline(always)]
    pub fn at<T: Copy>(items: &[T], place: usize) -> T {
        *item(items, place)
    }

    #[inline(always)]
    pub fn item<T>(items: &[T], place: usize) -> &T {
        debug_assert!(place < items.len());
        unsafe { items.get_unchecked(place) }
    }

    #[inline(always)]
    pub fn load(work: &super::Work, place: usize) -> u32 {
        debug_assert!(place < work.len());
        unsafe { *work.get_unchecked(place) }
    }

    #[inline(always)]
    pub fn load_many<const COUNT: usize>(work: &super::Work, place: usize) -> [u32; COUNT] {
        debug_assert!(place + COUNT <= work.len());
        unsafe { *work.as_ptr().add(place).cast() }
    }

    #[inline(always)]
    pub fn store(work: &mut super::Work, place: usize, word: u32) {
        debug_assert!(place < work.len());
        unsafe { *work.get_unchecked_mut(place) = word }
    }

    #[inline(always)]
    pub fn store_many<const COUNT: usize>(work: &mut super::Work, place: usize, words: [u32; COUNT]) {
        debug_assert!(place + COUNT <= work.len());
        unsafe { *work.as_mut_ptr().add(place).cast() = words }
    }
}

pub use access::{at, item, load, load_many, store, store_many};
