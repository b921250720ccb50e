/*
 * A test of kagari_flow_verify_with from C: sets of each slot, of all and of none, and sets that are
 * too short or have a bit that is no slot; with garbage in each buffer and canaries on both sides of
 * it and of the set. Ends with 0 if all is as it should be.
 */
#include "kagari_flow.h"

#include <inttypes.h>
#include <stdio.h>
#include <string.h>

/* The script has 65 slots, of which it names slot 0 as a parameter, and reads slot 64 too. */
enum { SLOTS = 65, W = 2, HEAD = 24, SLOT = 6, CODE = 20, SHEET = HEAD + SLOTS * SLOT + CODE };

static const uint8_t head[HEAD] = {
    0x0E, 0, 0, 1, 7, 0, 0, 0, SLOTS, 0, 0, 0, 2, 0, 0, 0, /* function 7: 2 instructions */
    6,    0, 1, 1, 0, 0, 0, 0,                             /* parameter: slot 0 */
};
static const uint8_t slot[SLOT] = {4, 0, 2, 1, 3, 0}; /* i32, no type */
static const uint8_t code[CODE] = {
    0x0A, 0, 1,    0, 1,  0, 0, 0, 0, 0, 0, 0, /* 0 Await: slot 1 from slot 0 */
    6,    0, 0x28, 0, 64, 0, 0, 0,             /* 1 Return: slot 64 */
};
static uint8_t sheet[SHEET];

/* The slots that are live at its entry, and saved by the await: 0 and 64. */
static uint64_t live[W] = {1, 1};

/* What the script takes: N = 2, A = 1, B = 1. It is refused with 13 when UNFILLED is charged. */
enum {
    UNFILLED = 32,
    WORK = 101,
    STATE = 1 * (32 * W + 264) + 16 * W,
    FACTS = 8 * W + 24,
    BLOCKS = 1,
    SETS = 7,
    SCRATCH = 40
};

/* Each buffer lies in the middle of its memory; what is before and behind it are canaries. */
enum { SIDE = 4, LONGER = 3, CANARY = 0xA5 };
static uint64_t added[SIDE + W + LONGER + SIDE];
static kagari_flow_block blocks[SIDE + BLOCKS + SIDE];
static uint64_t sets[SIDE + SETS + SIDE], scratch[SIDE + SCRATCH + SIDE];

/* What a call is handed beside the sheet: the first words of a set, and lengths. */
struct call {
    uint64_t set[W + LONGER];
    size_t words, blocks_len, sets_len, scratch_len;
    kagari_flow_budget budget;
    kagari_flow_limits limits;
};

static const struct call plain = {
    {0}, W, BLOCKS, SETS, SCRATCH, {5, 3}, KAGARI_FLOW_MOST_LIMITS,
};

static unsigned failures;

static void expect(int holds, const char *what, const struct call *call)
{
    if (holds)
        return;
    printf("with: %s, with %zu words %" PRIx64 " %" PRIx64 ", scratch %zu\n", what, call->words,
           call->set[0], call->set[1], call->scratch_len);
    failures++;
}

/* Whether so many bytes are all this one. */
static int all(const void *memory, size_t bytes, int value)
{
    const uint8_t *byte = memory;
    for (size_t i = 0; i < bytes; i++)
        if (byte[i] != value)
            return 0;
    return 1;
}

/* Whether nothing beside the first `length` items of a buffer was written to. */
static int guarded(const void *memory, size_t bytes, size_t item, size_t length)
{
    const uint8_t *start = memory;
    size_t end = (SIDE + length) * item;
    return all(start, SIDE * item, CANARY) && all(start + end, bytes - end, CANARY);
}

/* Whether the words of the set that a slot is in have it. */
static int has(const uint64_t *set, unsigned slot)
{
    return set[slot / 64] >> slot % 64 & 1;
}

/*
 * Makes a call with the first `length` bytes of the sheet. Holds the set and the limits to those
 * given, and the memory to what must be there, and gives the answer.
 */
static kagari_flow_answer make(const struct call *call, size_t length)
{
    static const kagari_flow_block block = {0, 2, 1, 0, 0, 0};
    memset(added, CANARY, sizeof added);
    memcpy(added + SIDE, call->set, call->words * sizeof *added);
    memset(blocks, CANARY, sizeof blocks);
    memset(sets, CANARY, sizeof sets);
    memset(scratch, CANARY, sizeof scratch);

    kagari_flow_answer_within with = kagari_flow_verify_with(
        sheet, length, added + SIDE, call->words, call->budget, call->limits, blocks + SIDE,
        call->blocks_len, sets + SIDE, call->sets_len, scratch + SIDE, call->scratch_len);

    expect(with.limits.work == call->limits.work && with.limits.state == call->limits.state &&
               with.limits.facts == call->limits.facts,
           "the limits did not come back as given", call);
    expect(memcmp(added + SIDE, call->set, call->words * sizeof *added) == 0,
           "the set was written to", call);
    expect(guarded(added, sizeof added, sizeof *added, call->words), "beside the set", call);
    expect(guarded(blocks, sizeof blocks, sizeof *blocks, call->blocks_len), "beside the blocks",
           call);
    expect(guarded(sets, sizeof sets, sizeof *sets, call->sets_len), "beside the sets", call);
    expect(guarded(scratch, sizeof scratch, sizeof *scratch, call->scratch_len), "beside scratch",
           call);
    expect(all(scratch + SIDE, call->scratch_len * sizeof *scratch, 0), "scratch is not zero",
           call);
    if (with.answer.number == KAGARI_FLOW_ACCEPTED) {
        /* Filled at the exit are the added slots, 0, which the sheet names, and 1, which the await
           writes. */
        const uint64_t facts[SETS] = {call->set[0] | 3, call->set[1], live[0], live[1],
                                      0,                live[0],      live[1]};
        expect(memcmp(blocks + SIDE, &block, sizeof block) == 0, "another block", call);
        expect(memcmp(sets + SIDE, facts, sizeof facts) == 0, "other sets", call);
        expect(with.answer.blocks == 1 && with.answer.awaits == 1, "other counts", call);
    } else {
        expect(all(blocks + SIDE, call->blocks_len * sizeof *blocks, 0), "blocks not zero", call);
        expect(all(sets + SIDE, call->sets_len * sizeof *sets, 0), "sets not zero", call);
        expect(with.answer.blocks == 0 && with.answer.awaits == 0, "counts", call);
    }
    return with.answer;
}

/* Holds a call with the whole sheet to a number, and to what is charged. */
static void gives(const struct call *call, uint32_t number, uint64_t work, uint64_t retained)
{
    kagari_flow_answer answer = make(call, sizeof sheet);
    expect(answer.number == number, "another number", call);
    expect(answer.function == 7, "another function", call);
    expect(answer.work == call->budget.work + work, "another sum of work", call);
    expect(answer.retained == call->budget.retained + retained, "another sum of bytes", call);
}

/* Holds a call to the one without a set: the answer and each buffer. */
static void is_within(const struct call *call)
{
    static kagari_flow_block blocks_within[BLOCKS];
    static uint64_t sets_within[SETS], scratch_within[SCRATCH];
    kagari_flow_answer with = make(call, sizeof sheet);
    kagari_flow_answer_within within = kagari_flow_verify_within(
        sheet, sizeof sheet, call->budget, call->limits, blocks_within, call->blocks_len,
        sets_within, call->sets_len, scratch_within, call->scratch_len);
    expect(memcmp(&with, &within.answer, sizeof with) == 0, "another answer", call);
    expect(memcmp(blocks + SIDE, blocks_within, call->blocks_len * sizeof *blocks) == 0 &&
               memcmp(sets + SIDE, sets_within, call->sets_len * sizeof *sets) == 0 &&
               memcmp(scratch + SIDE, scratch_within, call->scratch_len * sizeof *scratch) == 0,
           "other memory", call);
}

int main(void)
{
    const kagari_flow_limits higher = {UINT64_MAX, KAGARI_FLOW_MOST_STATE + 1, UINT64_MAX};
    const kagari_flow_limits least = {5 + WORK, STATE, 3 + FACTS}, none = {0, 0, 0};
    struct call call;

    memcpy(sheet, head, HEAD);
    for (size_t i = 0; i < SLOTS; i++)
        memcpy(sheet + HEAD + i * SLOT, slot, SLOT);
    memcpy(sheet + HEAD + SLOTS * SLOT, code, CODE);

    /* No slot, and each alone: slot 64 is the one that is missing. Slot 0 is no repeat. */
    call = plain;
    gives(&call, KAGARI_FLOW_UNFILLED_SLOT, UNFILLED, 0);
    for (unsigned i = 0; i < SLOTS; i++) {
        call = plain;
        call.set[i / 64] = (uint64_t)1 << i % 64;
        if (has(call.set, 64))
            gives(&call, KAGARI_FLOW_ACCEPTED, WORK, FACTS);
        else
            gives(&call, KAGARI_FLOW_UNFILLED_SLOT, UNFILLED, 0);
    }

    /* All slots, also with more words behind them. */
    for (call = plain; call.words <= W + LONGER; call.words++) {
        memset(call.set, 0xFF, sizeof call.set);
        call.set[1] = 1;
        gives(&call, KAGARI_FLOW_ACCEPTED, WORK, FACTS);
    }

    /* A bit that is no slot: before any charge, but after too little scratch. */
    for (unsigned bit = SLOTS; bit < 64 * W; bit++) {
        call = plain;
        call.set[bit / 64] = (uint64_t)1 << bit % 64 | 1;
        gives(&call, KAGARI_FLOW_NO_SUCH_SLOT, 0, 0);
        call.limits = none;
        call.blocks_len = call.sets_len = 0;
        call.scratch_len = 8;
        gives(&call, KAGARI_FLOW_NO_SUCH_SLOT, 0, 0);
        call.scratch_len = 7;
        gives(&call, KAGARI_FLOW_NO_ROOM, 0, 0);
    }

    /* Too few words, whatever they are. */
    for (call = plain, call.words = 0; call.words < W; call.words++) {
        memset(call.set, 0xFF, sizeof call.set);
        call.limits = none;
        for (call.scratch_len = 7; call.scratch_len <= SCRATCH; call.scratch_len++)
            gives(&call, KAGARI_FLOW_NO_ROOM, 0, 0);
    }

    /* Limits above today's, limits at what the script takes, and one of these lower. */
    call = plain;
    call.set[1] = 1;
    call.limits = higher;
    gives(&call, KAGARI_FLOW_ACCEPTED, WORK, FACTS);
    call.limits = least;
    gives(&call, KAGARI_FLOW_ACCEPTED, WORK, FACTS);
    call.limits.work--;
    gives(&call, KAGARI_FLOW_WORK_LIMIT, WORK, 0);
    call.limits = least;
    call.limits.state--;
    gives(&call, KAGARI_FLOW_STATE_LIMIT, 2, 0);
    call.limits = least;
    call.limits.facts--;
    gives(&call, KAGARI_FLOW_FACTS_LIMIT, WORK, FACTS);

    /* A buffer that is one too short: when each instruction has been charged. */
    call.limits = least;
    call.blocks_len--;
    gives(&call, KAGARI_FLOW_NO_ROOM, 2, 0);
    call.blocks_len++;
    call.sets_len--;
    gives(&call, KAGARI_FLOW_NO_ROOM, 2, 0);
    call.sets_len++;
    call.scratch_len--;
    gives(&call, KAGARI_FLOW_NO_ROOM, 2, 0);

    /* A sheet that is cut short is refused before the set is looked at. */
    for (call = plain, call.words = 0; call.words <= W; call.words++) {
        memset(call.set, 0xFF, sizeof call.set);
        for (size_t length = 0; length < sizeof sheet; length++) {
            kagari_flow_answer answer = make(&call, length);
            expect(answer.number == KAGARI_FLOW_SHORT_SHEET, "not short", &call);
            expect(answer.work == 5 && answer.retained == 3, "charged", &call);
        }
    }

    /* With zeros it is the call without a set: refused, then, with a Return of slot 1, accepted. */
    for (int round = 0; round < 2; round++) {
        call = plain;
        is_within(&call);
        call.limits = least;
        is_within(&call);
        call.limits = none;
        is_within(&call);
        call.scratch_len = 7;
        is_within(&call);
        sheet[SHEET - 4] = 1;
        live[1] = 0;
    }

    return failures != 0;
}
