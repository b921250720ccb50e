/*
 * A test of kagari_flow_verify_within from C: limits at, below and above what a script takes, with
 * garbage in each buffer and canaries on both sides of it. Ends with 0 if all is as it should be.
 */
#include "kagari_flow.h"

#include <inttypes.h>
#include <stdio.h>
#include <string.h>

/* Case d: an await over slot 0, then a return of slot 1. N = 2, A = 1, B = 1, w = 1. */
static const uint8_t sheet[56] = {
    0x0E, 0, 0,    1, 7, 0, 0, 0, 2, 0, 0, 0, 2, 0, 0, 0, /* function 7: 2 slots, 2 instructions */
    6,    0, 1,    1, 0, 0, 0, 0,                         /* parameter: slot 0 */
    4,    0, 2,    1, 3, 0,                               /* a slot */
    4,    0, 2,    1, 3, 0,                               /* a slot */
    0x0A, 0, 1,    0, 1, 0, 0, 0, 0, 0, 0, 0,             /* 0 Await: slot 1 from slot 0 */
    6,    0, 0x28, 0, 1, 0, 0, 0,                         /* 1 Return: slot 1 */
};

/* What the script takes. */
enum {
    WORK = 32,
    STATE = 1 * (32 * 1 + 264) + 16 * 1,
    FACTS = 8 * 1 + 24,
    BLOCKS = 1,
    SETS = 4,
    SCRATCH = 32
};

/* The sums of its work. */
static const uint64_t sums[] = {0, 1, 2, 4, 6, 9, 10, 12, 16, 18, 22, 24, 26, 28, 30, WORK};

/* Each buffer lies in the middle of its memory; what is before and behind it are canaries. */
enum { SIDE = 4, CANARY = 0xA5 };
static kagari_flow_block blocks[SIDE + BLOCKS + SIDE];
static uint64_t sets[SIDE + SETS + SIDE], scratch[SIDE + SCRATCH + SIDE];

static unsigned failures;

static void expect(int holds, const char *what, kagari_flow_limits limits)
{
    if (holds)
        return;
    printf("within: %s, with limits %" PRIu64 " %" PRIu64 " %" PRIu64 "\n", what, limits.work,
           limits.state, limits.facts);
    failures++;
}

/* Whether so many bytes are all this one. */
static int all(const void *memory, size_t bytes, int value)
{
    const uint8_t *byte = memory;
    for (size_t i = 0; i < bytes; i++)
        if (byte[i] != value)
            return 0;
    return 1;
}

/* Whether nothing beside the first `length` items of a buffer was written to. */
static int guarded(const void *memory, size_t bytes, size_t item, size_t length)
{
    const uint8_t *start = memory;
    size_t end = (SIDE + length) * item;
    return all(start, SIDE * item, CANARY) && all(start + end, bytes - end, CANARY);
}

/*
 * Makes a call with the first `length` bytes of the sheet and so many words of scratch. Holds the
 * limits to those given, and the memory to what must be there, and gives the answer.
 */
static kagari_flow_answer call(size_t length, kagari_flow_budget budget, kagari_flow_limits limits,
                               size_t scratch_len)
{
    static const kagari_flow_block block = {0, 2, 1, 0, 0, 0};
    static const uint64_t facts[SETS] = {3, 1, 0, 1};
    memset(blocks, CANARY, sizeof blocks);
    memset(sets, CANARY, sizeof sets);
    memset(scratch, CANARY, sizeof scratch);

    kagari_flow_answer_within within =
        kagari_flow_verify_within(sheet, length, budget, limits, blocks + SIDE, BLOCKS,
                                  sets + SIDE, SETS, scratch + SIDE, scratch_len);

    expect(within.limits.work == limits.work && within.limits.state == limits.state &&
               within.limits.facts == limits.facts,
           "the limits did not come back as given", limits);
    expect(guarded(blocks, sizeof blocks, sizeof *blocks, BLOCKS), "beside the blocks", limits);
    expect(guarded(sets, sizeof sets, sizeof *sets, SETS), "beside the sets", limits);
    expect(guarded(scratch, sizeof scratch, sizeof *scratch, scratch_len), "beside scratch",
           limits);
    expect(all(scratch + SIDE, scratch_len * sizeof *scratch, 0), "scratch is not zero", limits);
    if (within.answer.number == KAGARI_FLOW_ACCEPTED) {
        expect(memcmp(blocks + SIDE, &block, sizeof block) == 0, "another block", limits);
        expect(memcmp(sets + SIDE, facts, sizeof facts) == 0, "other sets", limits);
        expect(within.answer.blocks == 1 && within.answer.awaits == 1, "other counts", limits);
    } else {
        expect(all(blocks + SIDE, sizeof *blocks, 0), "the blocks are not zero", limits);
        expect(all(sets + SIDE, sizeof facts, 0), "the sets are not zero", limits);
        expect(within.answer.blocks == 0 && within.answer.awaits == 0, "counts", limits);
    }
    return within.answer;
}

/* Holds a call with the whole sheet to a number and a budget. */
static void gives(kagari_flow_budget budget, kagari_flow_limits limits, size_t scratch_len,
                  uint32_t number, uint64_t work, uint64_t retained)
{
    kagari_flow_answer answer = call(sizeof sheet, budget, limits, scratch_len);
    expect(answer.number == number, "another number", limits);
    expect(answer.function == 7, "another function", limits);
    expect(answer.work == work, "another sum of work", limits);
    expect(answer.retained == retained, "another sum of bytes", limits);
}

/* The first sum of work above a limit. */
static uint64_t first_above(uint64_t limit)
{
    size_t i = 0;
    while (sums[i] <= limit)
        i++;
    return sums[i];
}

int main(void)
{
    const kagari_flow_limits most = KAGARI_FLOW_MOST_LIMITS;
    const kagari_flow_limits higher = {UINT64_MAX, KAGARI_FLOW_MOST_STATE + 1, UINT64_MAX};
    const kagari_flow_limits least = {WORK, STATE, FACTS};
    const kagari_flow_limits none = {0, 0, 0};
    const kagari_flow_budget zero = {0, 0}, spent = {5, 3};
    kagari_flow_limits limits;

    gives(zero, most, SCRATCH, KAGARI_FLOW_ACCEPTED, WORK, FACTS);
    gives(zero, higher, SCRATCH, KAGARI_FLOW_ACCEPTED, WORK, FACTS);
    gives(zero, least, SCRATCH, KAGARI_FLOW_ACCEPTED, WORK, FACTS);

    /* One limit lower than that. */
    limits = least;
    for (limits.work = 0; limits.work < WORK; limits.work++)
        gives(zero, limits, SCRATCH, KAGARI_FLOW_WORK_LIMIT, first_above(limits.work), 0);
    limits = least;
    for (limits.state = 0; limits.state < STATE; limits.state++)
        gives(zero, limits, SCRATCH, KAGARI_FLOW_STATE_LIMIT, 2, 0);
    limits = least;
    for (limits.facts = 0; limits.facts < FACTS; limits.facts++)
        gives(zero, limits, SCRATCH, KAGARI_FLOW_FACTS_LIMIT, WORK, FACTS);

    /* Above today's figures nothing more is allowed. */
    kagari_flow_budget budget = {KAGARI_FLOW_MOST_WORK - WORK, 0};
    gives(budget, higher, SCRATCH, KAGARI_FLOW_ACCEPTED, KAGARI_FLOW_MOST_WORK, FACTS);
    budget.work++;
    gives(budget, higher, SCRATCH, KAGARI_FLOW_WORK_LIMIT, KAGARI_FLOW_MOST_WORK + 1, 0);
    budget.work = 0;
    budget.retained = KAGARI_FLOW_MOST_FACTS - FACTS;
    gives(budget, higher, SCRATCH, KAGARI_FLOW_ACCEPTED, WORK, KAGARI_FLOW_MOST_FACTS);
    budget.retained++;
    gives(budget, higher, SCRATCH, KAGARI_FLOW_FACTS_LIMIT, WORK, KAGARI_FLOW_MOST_FACTS + 1);

    /* A budget that is above the limits when it is handed in. */
    gives(spent, none, SCRATCH, KAGARI_FLOW_WORK_LIMIT, spent.work, spent.retained);
    limits = most;
    limits.facts = 0;
    gives(spent, limits, SCRATCH, KAGARI_FLOW_FACTS_LIMIT, spent.work + WORK,
          spent.retained + FACTS);

    /* Too little scratch: below 4 * N words before all limits, else after the state limit. */
    gives(spent, none, 7, KAGARI_FLOW_NO_ROOM, spent.work, spent.retained);
    gives(spent, most, SCRATCH - 1, KAGARI_FLOW_NO_ROOM, spent.work + 2, spent.retained);
    limits = most;
    limits.state = STATE - 1;
    gives(spent, limits, SCRATCH - 1, KAGARI_FLOW_STATE_LIMIT, spent.work + 2, spent.retained);

    /* A sheet that is cut short is refused before all limits. */
    for (size_t length = 0; length < sizeof sheet; length++) {
        kagari_flow_answer answer = call(length, spent, none, SCRATCH);
        expect(answer.number == KAGARI_FLOW_SHORT_SHEET, "not short", none);
        expect(answer.work == spent.work && answer.retained == spent.retained, "charged", none);
    }

    return failures != 0;
}
