/*
 * kagari_flow.h: the check of a route script, for hosts in C99 and C++.
 *
 * A script comes in as a sheet, a string of bytes. One call judges it and answers with its block
 * list and the slots that each await saves, or with the number of one refusal; a second does so
 * within limits that the host lowers; a third also takes slots that are parameters beside those that
 * the sheet names; another says what the saved slots weigh. Any bytes may be handed in, with buffers
 * of any length: no read or write leaves a buffer, and every call ends. The calls allocate nothing
 * and keep nothing from one call to the next.
 *
 * Link with libflow_c.a, which `tools/staticlib flow_c` writes to target/staticlib (x86-64, Linux).
 * examples/c/check.c is a whole host. docs/REFUSALS.md has a sheet for each refusal.
 */
#ifndef KAGARI_FLOW_H
#define KAGARI_FLOW_H

#include <stddef.h>
#include <stdint.h>

#ifdef __cplusplus
extern "C" {
#endif

/*
 * The version of this interface. It grows with a release that adds a call or a refusal, or changes
 * an answer; CHANGELOG.md says what each version brought.
 */
#define KAGARI_FLOW_VERSION 4

/*
 * What is charged so far: steps of work, and bytes of await facts retained. Begin with zeros; hand
 * in the budget of the last answer to let several scripts share one budget. Sums stop at 2^64 - 1.
 */
typedef struct {
    uint64_t work, retained;
} kagari_flow_budget;

/*
 * Limits. A script is refused with
 * work      12 if the budget's work comes to more than these steps
 * state     11 if the check's state takes more than these bytes. With B blocks and sets of w words
 *           (see the sizes below) it takes B * (32 * w + 264) + 16 * w
 * facts     15 if an await brings the budget's retained bytes to more than these. Each await that a
 *           path reaches adds 8 * w + 24
 *
 * A limit can be lowered, not raised: it counts as the smaller of itself and the figure below. For
 * one that is to stay as it is, hand in its figure or anything above it.
 */
typedef struct {
    uint64_t work, state, facts;
} kagari_flow_limits;

#define KAGARI_FLOW_MOST_WORK 100000000
#define KAGARI_FLOW_MOST_STATE 67108864
#define KAGARI_FLOW_MOST_FACTS 67108864

/* The limits of a call that is handed none: kagari_flow_limits limits = KAGARI_FLOW_MOST_LIMITS; */
#define KAGARI_FLOW_MOST_LIMITS \
    {KAGARI_FLOW_MOST_WORK, KAGARI_FLOW_MOST_STATE, KAGARI_FLOW_MOST_FACTS}

/*
 * One block: the instructions from `start` up to, not including, `end`. `reachable` is 1 if a path
 * from instruction 0 reaches it, else 0. Its successors are block numbers; those past
 * `successor_count` (0 to 2) are 0.
 */
typedef struct {
    uint32_t start, end, reachable, successor_count, successor_0, successor_1;
} kagari_flow_block;

/*
 * The answer.
 * number    0 if the script is accepted, else the refusal, 1 to 15 or 17
 * function  the function's id; 0 if the function record itself is refused with 1, 2 or 3
 * blocks    how many blocks there are (B); 0 after a refusal
 * awaits    how many awaits a path from instruction 0 reaches; 0 after a refusal
 * work, retained
 *           the budget afterwards: as given after 1 to 9 and 17, and after 10 if scratch is shorter
 *           than 4 * N words, or an added set than w; else as charged, with the sum that crossed a
 *           limit
 */
typedef struct {
    uint32_t number, function;
    uint64_t blocks, awaits, work, retained;
} kagari_flow_answer; /* number 0: accepted */

/*
 * The answer of a call that is handed limits. They come back as they were given, not as they count,
 * whatever the number is.
 */
typedef struct {
    kagari_flow_answer answer;
    kagari_flow_limits limits;
} kagari_flow_answer_within;

/*
 * The refusals. Of several that are due, the order of docs/REFUSALS.md decides. No answer has the
 * number 16. A later version may add numbers.
 */
enum kagari_flow_number {
    KAGARI_FLOW_ACCEPTED = 0,
    /* The sheet ends inside a record, or a record's length is below 2: hand in the whole sheet. */
    KAGARI_FLOW_SHORT_SHEET = 1,
    /* A record is of another kind than is due at its place: put the records in order. */
    KAGARI_FLOW_WRONG_KIND = 2,
    /* A record's length, type, physical byte or module slot does not fit: write its body anew. */
    KAGARI_FLOW_BAD_BODY = 3,
    /* Bytes follow the last record: cut them off, or correct the instruction count. */
    KAGARI_FLOW_LEFT_OVER = 4,
    /* Slots or instructions are above 65,536: split the script. */
    KAGARI_FLOW_TOO_MANY = 5,
    /* There is no instruction: put in at least a Return. */
    KAGARI_FLOW_NO_CODE = 6,
    /* A slot number, or a bit of an added set, is at or above the slot count: correct the number or
       the count, or clear the bit. */
    KAGARI_FLOW_NO_SUCH_SLOT = 7,
    /* A target is at or above the instruction count: aim it at an instruction of the script. */
    KAGARI_FLOW_NO_SUCH_TARGET = 8,
    /* The last instruction lets control run past the end: end with a branch, Jump, Return or
       Unreachable. */
    KAGARI_FLOW_OPEN_END = 9,
    /* A lent buffer or an added set is too short: lend what the sizes below say. */
    KAGARI_FLOW_NO_ROOM = 10,
    /* Blocks times slots is too much for the check's state, 67,108,864 bytes or the lower limit that
       was handed in: split the script, or hand in a higher limit. */
    KAGARI_FLOW_STATE_LIMIT = 11,
    /* The check would take more than 100,000,000 steps, or than the lower limit that was handed in:
       start from a smaller work budget, or a higher limit, or split the script. */
    KAGARI_FLOW_WORK_LIMIT = 12,
    /* Some path reads a slot that is no parameter and was not written before: fill it on every
       path, or make it a parameter. */
    KAGARI_FLOW_UNFILLED_SLOT = 13,
    /* A host handle would be saved over an await: use it up before, or fetch it again after. */
    KAGARI_FLOW_HOST_OVER_AWAIT = 14,
    /* The await facts would retain more than 67,108,864 bytes, or than the lower limit that was
       handed in: start from a smaller retained budget, or a higher limit, or save less. */
    KAGARI_FLOW_FACTS_LIMIT = 15,
    /* The parameter record names a slot twice: give each parameter a slot of its own. */
    KAGARI_FLOW_PARAMETER_TWICE = 17
};

/*
 * Sizes. Let N be the instruction count, A the number of await instructions (kind 1), reached or
 * not, B the number of blocks, and w = slots / 64 rounded up. In the sheet the slot count is
 * the little-endian u32 at byte 8 and N the one at byte 12. The call needs
 *
 *     scratch   4 * N + B * (4 * w + 16) + 4 * w     words of 64 bits
 *     blocks    B                                    records
 *     sets      B * 2 * w + A * (1 + w)              words of 64 bits
 *
 * A shorter one is refused with 10; of a longer one the rest is cleared. An added set has w words.
 * The refusals 1 to 9 and 17 of a sheet check, as of slots or N above 65,536, need no room at all.
 *
 * B is known only afterwards, but it is at most N, and a script with more blocks than
 * KAGARI_FLOW_MOST_BLOCKS(w) is refused with 11 before these lengths are looked at. So for one
 * sheet KAGARI_FLOW_BLOCKS(n, w) in the place of B is enough. Memory that is to serve several
 * sheets takes the largest counts, and N in the place of B. N in the place of A is enough too.
 *
 * These sizes are always enough, whatever slots are added and whatever the limits: a lower state
 * limit leaves fewer blocks.
 *
 * The macros are for slots and N up to 65,536, so for w up to 1,024.
 */
#define KAGARI_FLOW_WORDS(slots) (((size_t)(slots) + 63) / 64)
#define KAGARI_FLOW_MOST_BLOCKS(w) \
    ((KAGARI_FLOW_MOST_STATE - 16 * (size_t)(w)) / (32 * (size_t)(w) + 264))
#define KAGARI_FLOW_BLOCKS(n, w) \
    ((size_t)(n) < KAGARI_FLOW_MOST_BLOCKS(w) ? (size_t)(n) : KAGARI_FLOW_MOST_BLOCKS(w))
#define KAGARI_FLOW_SCRATCH(n, b, w) \
    (4 * (size_t)(n) + (size_t)(b) * (4 * (size_t)(w) + 16) + 4 * (size_t)(w))
#define KAGARI_FLOW_SETS(b, a, w) ((size_t)(b) * 2 * (size_t)(w) + (size_t)(a) * (1 + (size_t)(w)))

/*
 * Judges a sheet.
 *
 * Lengths: sheet_len in bytes, blocks_len in records, sets_len and scratch_len in words.
 *
 * The caller owes, and nothing can check:
 * - every pointer is non-null and aligned to its type, also where its length is 0;
 * - each points to as much memory as its length says, and no length is above PTRDIFF_MAX bytes;
 * - no two of the four overlap, and nothing else writes to them during the call.
 * What blocks, sets and scratch hold on entry does not matter. The sheet is only read.
 *
 * After an acceptance:
 * - blocks has the B records, by start, then zeros;
 * - sets has, for each block, w words of the slots filled at its exit and w words of those live at
 *   its entry; then, for each await that a path reaches, ascending, its instruction and the w words
 *   of the slots that it saves; then zeros. Slot s is bit s % 64 of word s / 64. An unreachable
 *   block has all bits of its first set, also those above the slot count, and none of its second;
 * - scratch is zero.
 *
 * After a refusal blocks, sets and scratch are all zero, whatever the number.
 */
kagari_flow_answer kagari_flow_verify(const uint8_t *sheet, size_t sheet_len,
                                      kagari_flow_budget budget, kagari_flow_block *blocks,
                                      size_t blocks_len, uint64_t *sets, size_t sets_len,
                                      uint64_t *scratch, size_t scratch_len);

/*
 * Judges a sheet within limits: all as above, but 11, 12 and 15 are judged by these limits.
 * kagari_flow_verify is this call with KAGARI_FLOW_MOST_LIMITS.
 *
 * - Work that is above its limit when it is handed in is 12, and comes back as it was.
 * - Retained bytes above their limit are no refusal by themselves: 15 is given where an await adds
 *   to them.
 * - If a script is accepted, then under any limits of which none is lower, from the same budget and
 *   with buffers of the same lengths, the answer, the block list and the sets are the same.
 */
kagari_flow_answer_within
kagari_flow_verify_within(const uint8_t *sheet, size_t sheet_len, kagari_flow_budget budget,
                          kagari_flow_limits limits, kagari_flow_block *blocks, size_t blocks_len,
                          uint64_t *sets, size_t sets_len, uint64_t *scratch, size_t scratch_len);

/*
 * Judges a sheet within limits, with the slots of a set as parameters beside those that it names:
 * all as above, of the script with both. The set may be of any slots, also of more than a parameter
 * record can name, which are 16,383.
 *
 * `added` has KAGARI_FLOW_WORDS(slots) words, w; slot s is bit s % 64 of word s / 64. It is only
 * read, and words past w are not looked at. Its length, added_len, is in words. The caller owes what
 * it owes above, of these five.
 *
 * - Fewer than w words are 10, judged together with scratch below 4 * N words; then a bit at or above
 *   the slot count in the first w words is 7. Both come after the sheet checks and before all
 *   charges: the budget is as given.
 * - A slot that the sheet names too is no fault: 17 is of the sheet's parameter record alone.
 * - With w words of zeros it is kagari_flow_verify_within: the answer, the limits, each buffer.
 * - What is charged depends on which slots are parameters, not on where they are named. If a record
 *   can name all of them, the sheet with that record in the place of its own gets the same answer.
 * - If a script is accepted, it does not get 13 with more slots added, though it may be charged
 *   otherwise.
 */
kagari_flow_answer_within
kagari_flow_verify_with(const uint8_t *sheet, size_t sheet_len, const uint64_t *added,
                        size_t added_len, kagari_flow_budget budget, kagari_flow_limits limits,
                        kagari_flow_block *blocks, size_t blocks_len, uint64_t *sets,
                        size_t sets_len, uint64_t *scratch, size_t scratch_len);

/*
 * A load.
 * number    0, or the refusal, 1 to 10 or 17
 * function  the function's id; 0 if the function record itself is refused with 1, 2 or 3
 * load      the load; 0 after a refusal
 */
typedef struct {
    uint32_t number, function;
    uint64_t load;
} kagari_flow_load_answer; /* number 0: there is a load */

/*
 * The load of an answer: over all its awaits, the slots that each saves. A never or a unit slot
 * (physical 0 or 1) holds nothing and weighs nothing, though it is saved; every other slot weighs 1.
 *
 * Hand in the sheet that was judged, the sets as the call left them, and `blocks` and `awaits` of the
 * answer. Any bytes, words and numbers may be handed in: a sheet that fails a sheet check is refused
 * with 1 to 9 or 17, sets with fewer than KAGARI_FLOW_SETS(blocks, awaits, w) words with 10, and bits at or
 * above the slot count weigh nothing. A load stops at 2^64 - 1, which no memory is large enough for.
 *
 * Lengths: sheet_len in bytes, sets_len in words. The caller owes what it owes above, of these two.
 * Both are only read.
 */
kagari_flow_load_answer kagari_flow_load(const uint8_t *sheet, size_t sheet_len,
                                         const uint64_t *sets, size_t sets_len, uint64_t blocks,
                                         uint64_t awaits);

#ifdef __cplusplus
}
#endif

#endif
