/* Hukolearu: the proved engine, for C. Link with libhukolearu.a (`bindings/archive` makes it), which is for x86-64 Linux.
 *
 * Every call is total: any lengths, any words. A length of 0 may come with any pointer that is not null.
 * Buffers are read and written as document 01 says:
 *   file, offered  only read
 *   work           status 1: unchanged; any other status: the first 16,384 words are zero afterwards, later ones unchanged
 *   proof, answer  status 0: the proof and the answer stand at the front, later words unchanged; any other status: unchanged
 * Stack: the searches and checks of the deepest tables that have been found need under 150 KB; lend 1 MiB, and what a call below asks for more.
 * No two buffers may overlap. Nothing is allocated and nothing is kept between calls; calls on different buffers may run at the same time.
 */
#ifndef HUKOLEARU_H
#define HUKOLEARU_H

#include <stddef.h>
#include <stdint.h>

/* What comes back; numbers not named for a status are 0. */
struct hukolearu_outcome {
    uint32_t status;
    uint32_t place;
    uint32_t proof;     /* words of the proof */
    uint32_t disjuncts;
    uint32_t answer;    /* words of the answer */
    uint32_t tries;
};

/* README.md, "What each status means". */
enum hukolearu_status {
    HUKOLEARU_FOUND = 0,
    HUKOLEARU_WORK_TOO_SHORT = 1,
    HUKOLEARU_PROOF_TOO_SHORT = 2,
    HUKOLEARU_BOUND_TOO_LARGE = 3,
    HUKOLEARU_FILE_SIZE = 4,
    HUKOLEARU_TRAILER = 5,
    HUKOLEARU_FINGERPRINT = 6,
    HUKOLEARU_MALFORMED_BODY = 7,
    HUKOLEARU_CLAUSES = 8,
    HUKOLEARU_POSITIVE_QUESTION = 9,
    HUKOLEARU_NONE = 10,
    HUKOLEARU_RAN_OUT = 11,
    HUKOLEARU_MALFORMED_STEP = 12,
    HUKOLEARU_STEP_NOT_ALLOWED = 13,
    HUKOLEARU_CLASH = 14,
    HUKOLEARU_LEAVES_OPEN = 15,
    HUKOLEARU_ANSWER_TOO_LONG = 16,
    HUKOLEARU_TEXT = 17,
    HUKOLEARU_QUESTIONS = 18,
    HUKOLEARU_OVER_A_LIMIT = 19,
    HUKOLEARU_CIRCLE = 20,
    HUKOLEARU_RESTRICTED_QUESTION = 21,
    HUKOLEARU_NO_CONCLUSION = 22,
    HUKOLEARU_ENTRIES = 23,
    HUKOLEARU_OUT_OF_RANGE = 24
};

#define HUKOLEARU_WORK_WORDS 16384
#define HUKOLEARU_PROOF_WORDS 199
#define HUKOLEARU_RESTART_PROOF_WORDS 231

/* The calls have the names that they have in Rattle and in Rust, with a prefix, and the same arguments in the same order. */
struct hukolearu_outcome hukolearu_search(const uint32_t *file, size_t file_words, uint32_t bound, uint32_t budget,
                                          uint32_t *proof, size_t proof_words, uint32_t *answer, size_t answer_words,
                                          uint32_t *work, size_t work_words);

struct hukolearu_outcome hukolearu_check_proof(const uint32_t *file, size_t file_words, uint32_t bound,
                                               const uint32_t *offered, size_t offered_words,
                                               uint32_t *answer, size_t answer_words, uint32_t *work, size_t work_words);

/* Order 8: the education desk. Bit 16 of a clause word marks a clause as restricted; education's search and checker pass over such clauses and
 * number the others from 0, the question last. Two accepted files with the same unrestricted clauses in the same order and the same question give
 * the same numbers, proof, answer and work words. Statuses 4 to 9 and 21 are of the whole file. Arguments and buffers as above. Stack: 70 KB more. */
struct hukolearu_outcome hukolearu_education_search(const uint32_t *file, size_t file_words, uint32_t bound, uint32_t budget,
                                                    uint32_t *proof, size_t proof_words, uint32_t *answer, size_t answer_words,
                                                    uint32_t *work, size_t work_words);

struct hukolearu_outcome hukolearu_education_check(const uint32_t *file, size_t file_words, uint32_t bound,
                                                   const uint32_t *offered, size_t offered_words,
                                                   uint32_t *answer, size_t answer_words, uint32_t *work, size_t work_words);

/* Order 11: rules read one way, for both desks. Clauses are entered by their positive literals alone; a positive leaf is reduced, or restarted: a
 * fresh copy of the question hangs under it (step 80000000, which counts as an extension and is tried after the reductions). A search wants 231
 * words for its proof; 22, after 21, is the first clause other than the question without a positive literal, its place the clause word, in the whole
 * file for both desks. Everything else as for the four calls above. */
struct hukolearu_outcome hukolearu_restart_search(const uint32_t *file, size_t file_words, uint32_t bound, uint32_t budget,
                                                  uint32_t *proof, size_t proof_words, uint32_t *answer, size_t answer_words,
                                                  uint32_t *work, size_t work_words);

struct hukolearu_outcome hukolearu_restart_check(const uint32_t *file, size_t file_words, uint32_t bound,
                                                 const uint32_t *offered, size_t offered_words,
                                                 uint32_t *answer, size_t answer_words, uint32_t *work, size_t work_words);

struct hukolearu_outcome hukolearu_restart_education_search(const uint32_t *file, size_t file_words, uint32_t bound, uint32_t budget,
                                                            uint32_t *proof, size_t proof_words, uint32_t *answer, size_t answer_words,
                                                            uint32_t *work, size_t work_words);

struct hukolearu_outcome hukolearu_restart_education_check(const uint32_t *file, size_t file_words, uint32_t bound,
                                                           const uint32_t *offered, size_t offered_words,
                                                           uint32_t *answer, size_t answer_words, uint32_t *work, size_t work_words);

/* Order 12: a slimmer file without repeats and dead clauses, and the old number of each clause that it keeps. A refusal (4 to 9, 21, or 16
 * where either buffer is too short) leaves both buffers unchanged; on 0 later words are unchanged. */
struct hukolearu_slimmed {
    uint32_t status;
    uint32_t place;
    uint32_t words;   /* of the slimmer file */
    uint32_t clauses; /* of the slimmer file, which is how many numbers are written */
};

struct hukolearu_slimmed hukolearu_slim(const uint32_t *file, size_t file_words, uint32_t *slimmer, size_t slimmer_words,
                                        uint32_t *numbers, size_t numbers_words);

/* Order 14: the matinee desk. Three words a record: day 1-366, house 1-999, slot 1 matinee, 2 evening, 3 either; a budget of tries for
 * each of the questions for matinee, for evening and for any slot. Status 0, 11 (a budget ended) or 24 (a number out of range, too many
 * records, or words left over); the others are 1 where the slot is reported. */
struct hukolearu_desk {
    uint32_t status;
    uint32_t matinee;
    uint32_t evening;
    uint32_t either;
};

struct hukolearu_desk hukolearu_ask_desk(const uint32_t *records, size_t records_words, uint32_t day, uint32_t house,
                                         uint32_t for_matinee, uint32_t for_evening, uint32_t for_any);

/* Order 6: the least bound up to a limit at which there is a proof. The bound is 0 unless the status is 0 or 16; the tries are summed. */
struct hukolearu_least {
    uint32_t bound;
    struct hukolearu_outcome outcome;
};

struct hukolearu_least hukolearu_smallest(const uint32_t *file, size_t file_words, uint32_t limit, uint32_t budget,
                                          uint32_t *proof, size_t proof_words, uint32_t *answer, size_t answer_words,
                                          uint32_t *work, size_t work_words);

/* Order 1: a question file from TPTP clause text (roles axiom, hypothesis and negated_conjecture). On 0 the file stands at the front of the
 * buffer, later words unchanged; a refusal leaves it unchanged: 17 with the place of the first byte that is wrong (65,536 for a longer
 * text), 18 not exactly one question, 19 over a limit or over the buffer, 9 a positive literal in the question. Stack: 2 MiB more. */
struct hukolearu_text_read {
    uint32_t status;
    uint32_t place;
    uint32_t words; /* of the file */
};

struct hukolearu_text_read hukolearu_read(const uint8_t *text, size_t text_bytes, uint32_t *file, size_t file_words);

/* Order 2: the text of a file, one clause a line, as cnf(c0,axiom,(p1(f1,f2) | ~ p2(X0))). with a line feed, the question last. On 0 the text
 * stands at the front of the buffer, later bytes unchanged; a refusal (4 to 9, 21, or 16 where the text does not fit) leaves it unchanged. A text
 * has at most 2,240,000 bytes. */
struct hukolearu_text_written {
    uint32_t status;
    uint32_t place;
    uint32_t bytes; /* of the text */
};

struct hukolearu_text_written hukolearu_write(const uint32_t *file, size_t file_words, uint8_t *text, size_t text_bytes);

/* Order 7: the clauses behind an accepted proof, the question and each clause that a step copies, ascending, each once: a line with the clause's
 * number, the number of its copies (for the question the start counts) and the clause as above. On 0 the listing stands at the front of its buffer,
 * later bytes unchanged; a refusal, the checker's or 16 where the listing does not fit, leaves it unchanged. No answer is written. The work words
 * end as after a check. */
struct hukolearu_text_written hukolearu_listing(const uint32_t *file, size_t file_words, uint32_t bound, const uint32_t *offered, size_t offered_words,
                                                uint8_t *listing, size_t listing_bytes, uint32_t *work, size_t work_words);

/* Order 13: the season report, many questions put to one table. Four words an entry: the place and length of a question's words in the list,
 * a bound and a budget. Each question takes the place of the table's own; a bad one, or one that points past the list, counts as refused.
 * The buffers end as the single searches in turn leave them. 1, 2, the table's own (4 to 9, 21), then 23: more than 4,096 entries, or words left
 * over; the numbers are then 0. Stack: 70 KB more. */
struct hukolearu_season {
    uint32_t status;
    uint32_t place;
    uint32_t definite;   /* found, one disjunct */
    uint32_t indefinite; /* found, more than one */
    uint32_t none;
    uint32_t ran_out;
    uint32_t too_long;   /* found, its answer longer than the buffer */
    uint32_t refused;
    uint64_t tries;
};

struct hukolearu_season hukolearu_season(const uint32_t *table, size_t table_words, const uint32_t *entries, size_t entries_words,
                                         const uint32_t *list, size_t list_words, uint32_t *proof, size_t proof_words,
                                         uint32_t *answer, size_t answer_words, uint32_t *work, size_t work_words);

#endif
