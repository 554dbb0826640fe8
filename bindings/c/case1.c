/* Case 1 of document 01 through the C calls: at(e,mat) or at(e,eve); ask at(e,X). Ends with 0 where everything is as the document says. */
#include "hukolearu.h"

extern int puts(const char *);

static uint32_t file[15] = {0xC0000602, 0x80002001, 0x40000001, 0x40000002, 0x80002001, 0x40000001, 0x40000003, 0xC0000309,
                            0x8000A001, 0x40000001, 0x00000000, 7, 2, 0x1AE33758, 11};
static uint32_t proof[199], answer[64], work[16384 + 1];

static int same(const uint32_t *a, const uint32_t *b, size_t n)
{
    for (size_t i = 0; i < n; i++)
        if (a[i] != b[i])
            return 0;
    return 1;
}

static int says(const char *what, int right)
{
    puts(what);
    puts(right ? "  as it should be" : "  WRONG");
    return !right;
}

int main(void)
{
    static const uint32_t steps[2] = {0x40000000, 0x40000001};
    static const uint32_t words[6] = {0x80002001, 0x40000001, 0x40000002, 0x80002001, 0x40000001, 0x40000003};
    int wrong = 0;

    work[16384] = 0xA5A5A5A5;
    struct hukolearu_outcome found = hukolearu_search(file, 15, 2, 3, proof, 199, answer, 64, work, 16385);
    wrong |= says("search: found, 2 steps, 2 disjuncts, 6 words, 3 tries",
                  found.status == HUKOLEARU_FOUND && found.place == 0 && found.proof == 2 && found.disjuncts == 2 && found.answer == 6
                      && found.tries == 3 && same(proof, steps, 2) && same(answer, words, 6) && work[0] == 0 && work[16384] == 0xA5A5A5A5);

    struct hukolearu_outcome checked = hukolearu_check_proof(file, 15, 2, proof, 2, answer, 64, work, 16384);
    wrong |= says("check: accepted, tries 0", checked.status == HUKOLEARU_FOUND && checked.proof == 2 && checked.tries == 0 && same(answer, words, 6));

    struct hukolearu_outcome none = hukolearu_search(file, 15, 1, 100, proof, 199, answer, 64, work, 16384);
    wrong |= says("search, K = 1: none, 4 tries", none.status == HUKOLEARU_NONE && none.tries == 4);

    struct hukolearu_outcome small = hukolearu_search(file, 15, 2, 3, proof, 199, answer, 64, work, 16383);
    wrong |= says("search, 16,383 work words: refused", small.status == HUKOLEARU_WORK_TOO_SHORT);

    static uint32_t marked[15];
    for (int i = 0; i < 15; i++)
        marked[i] = file[i];
    marked[0] |= 1u << 16;
    marked[13] = 0x2763BFA1;
    struct hukolearu_outcome seen = hukolearu_search(marked, 15, 2, 3, proof, 199, answer, 64, work, 16384);
    struct hukolearu_outcome hidden = hukolearu_education_search(marked, 15, 2, 3, proof, 199, answer, 64, work, 16384);
    struct hukolearu_outcome taught = hukolearu_education_search(file, 15, 2, 3, proof, 199, answer, 64, work, 16384);
    struct hukolearu_outcome past = hukolearu_education_check(marked, 15, 2, steps, 2, answer, 64, work, 16384);
    wrong |= says("education: nothing to enter where the playbill is restricted, the same as the search where it is not",
                  seen.status == HUKOLEARU_FOUND && hidden.status == HUKOLEARU_NONE && hidden.tries == 0 && taught.status == HUKOLEARU_FOUND
                      && taught.tries == 3 && same(proof, steps, 2) && same(answer, words, 6) && past.status == HUKOLEARU_STEP_NOT_ALLOWED
                      && past.place == 0);

    static const uint32_t one_way[3] = {0x40000000, 0x80000000, 0x00000001};
    static uint32_t longer[231];
    struct hukolearu_outcome restarted = hukolearu_restart_search(file, 15, 2, 4, longer, 231, answer, 64, work, 16384);
    int in_order = same(longer, one_way, 3) && same(answer, words, 6);
    struct hukolearu_outcome again = hukolearu_restart_check(file, 15, 2, one_way, 3, answer, 64, work, 16384);
    struct hukolearu_outcome no_step = hukolearu_check_proof(file, 15, 2, one_way, 3, answer, 64, work, 16384);
    struct hukolearu_outcome short_of_room = hukolearu_restart_search(file, 15, 2, 4, longer, 230, answer, 64, work, 16384);
    wrong |= says("rules read one way: the positive leaf is restarted, 4 tries; for the base that is no step",
                  restarted.status == HUKOLEARU_FOUND && restarted.proof == 3 && restarted.disjuncts == 2 && restarted.tries == 4 && in_order
                      && again.status == HUKOLEARU_FOUND && again.proof == 3 && no_step.status == HUKOLEARU_MALFORMED_STEP && no_step.place == 1
                      && short_of_room.status == HUKOLEARU_PROOF_TOO_SHORT);

    struct hukolearu_outcome desk_found = hukolearu_restart_education_search(file, 15, 2, 4, longer, 231, answer, 64, work, 16384);
    struct hukolearu_outcome desk_none = hukolearu_restart_education_search(marked, 15, 2, 4, longer, 231, answer, 64, work, 16384);
    struct hukolearu_outcome desk_again = hukolearu_restart_education_check(file, 15, 2, one_way, 3, answer, 64, work, 16384);
    wrong |= says("rules read one way, for education",
                  desk_found.status == HUKOLEARU_FOUND && desk_found.tries == 4 && desk_none.status == HUKOLEARU_NONE
                      && desk_again.status == HUKOLEARU_FOUND && desk_again.disjuncts == 2);

    static uint32_t slimmer[15], numbers[2];
    struct hukolearu_slimmed slim = hukolearu_slim(file, 15, slimmer, 15, numbers, 2);
    wrong |= says("slimmer file: nothing drops, and the file comes back word for word",
                  slim.status == HUKOLEARU_FOUND && slim.words == 15 && slim.clauses == 2 && same(slimmer, file, 15) && numbers[0] == 0
                      && numbers[1] == 1);

    static const uint32_t records[6] = {7, 3, 1, 7, 3, 2};
    struct hukolearu_desk desk = hukolearu_ask_desk(records, 6, 7, 3, 1000, 1000, 1000);
    wrong |= says("desk: a matinee and an evening, two events",
                  desk.status == HUKOLEARU_FOUND && desk.matinee == 1 && desk.evening == 1 && desk.either == 0);

    struct hukolearu_least least = hukolearu_smallest(file, 15, 32, 7, proof, 199, answer, 64, work, 16384);
    wrong |= says("smallest bound: 2, after 0 + 4 + 3 tries",
                  least.bound == 2 && least.outcome.status == HUKOLEARU_FOUND && least.outcome.tries == 7 && same(proof, steps, 2)
                      && same(answer, words, 6));

    static const uint8_t text[] = "cnf(bill,axiom,(at(e,mat) | at(e,eve))). % a playbill\ncnf(asked,negated_conjecture,~ at(e,X)).";
    static uint32_t read[15];
    struct hukolearu_text_read said = hukolearu_read(text, sizeof text - 1, read, 15);
    struct hukolearu_outcome asked = hukolearu_search(read, said.words, 2, 3, proof, 199, answer, 64, work, 16384);
    wrong |= says("clause text: read into a file, whose question is answered",
                  said.status == HUKOLEARU_FOUND && said.words == 15 && asked.status == HUKOLEARU_FOUND && asked.disjuncts == 2);

    static const char lines[] = "cnf(c0,axiom,(p1(f1,f2) | p1(f1,f3))).\ncnf(c1,negated_conjecture,(~ p1(f1,X0))).\n";
    static uint8_t out[100];
    const size_t bytes = sizeof lines - 1;
    out[bytes] = 0xA5;
    struct hukolearu_text_written short_by_one = hukolearu_write(file, 15, out, bytes - 1);
    int empty = out[0] == 0 && out[bytes - 2] == 0;
    struct hukolearu_text_written written = hukolearu_write(file, 15, out, sizeof out);
    int equal = 1;
    for (size_t i = 0; i < bytes; i++)
        equal &= out[i] == (uint8_t)lines[i];
    wrong |= says("clause text: written, and refused where it lacks a byte of room",
                  short_by_one.status == HUKOLEARU_ANSWER_TOO_LONG && short_by_one.bytes == 0 && empty && written.status == HUKOLEARU_FOUND
                      && written.bytes == bytes && equal && out[bytes] == 0xA5);

    static const char behind[] = "0 1 cnf(c0,axiom,(p1(f1,f2) | p1(f1,f3))).\n1 2 cnf(c1,negated_conjecture,(~ p1(f1,X0))).\n";
    static uint8_t listing[100];
    const size_t behind_bytes = sizeof behind - 1;
    listing[behind_bytes] = 0xA5;
    struct hukolearu_text_written open_leaf = hukolearu_listing(file, 15, 2, steps, 1, listing, sizeof listing, work, 16384);
    struct hukolearu_text_written too_short = hukolearu_listing(file, 15, 2, steps, 2, listing, behind_bytes - 1, work, 16384);
    int unlisted = listing[0] == 0 && listing[behind_bytes - 2] == 0;
    struct hukolearu_text_written listed = hukolearu_listing(file, 15, 2, steps, 2, listing, sizeof listing, work, 16384);
    int alike = 1;
    for (size_t i = 0; i < behind_bytes; i++)
        alike &= listing[i] == (uint8_t)behind[i];
    wrong |= says("listing: the clauses behind a proof, and refused where a leaf is open or a byte of room lacks",
                  open_leaf.status == HUKOLEARU_LEAVES_OPEN && open_leaf.place == 1 && too_short.status == HUKOLEARU_ANSWER_TOO_LONG
                      && unlisted && listed.status == HUKOLEARU_FOUND && listed.bytes == behind_bytes && alike && listing[behind_bytes] == 0xA5);

    static const uint32_t entries[12] = {0, 4, 2, 3, 0, 4, 1, 9, 1, 4, 2, 3};
    struct hukolearu_season season = hukolearu_season(file, 15, entries, 12, file + 7, 4, proof, 199, answer, 64, work, 16384);
    wrong |= says("season: one found, one none, one past the list, 3 + 4 tries",
                  season.status == HUKOLEARU_FOUND && season.definite == 0 && season.indefinite == 1 && season.none == 1 && season.ran_out == 0
                      && season.too_long == 0 && season.refused == 1 && season.tries == 7 && same(answer, words, 6));
    return wrong;
}
