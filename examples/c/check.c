/*
 * Checks one sheet: reads it in hexadecimal, prints the answer, the blocks, the slots that each await
 * saves, and their load. The budget is zero, and the limits are the highest, unless they are given.
 * Slots that are given are parameters beside those that the sheet names.
 *
 *     check FILE [WORK RETAINED [MOST_WORK MOST_STATE MOST_FACTS [SLOT ..]]]
 *
 * Ends with 0 if the script is accepted, 1 if it is refused, 2 if it can't be read.
 */
#include "kagari_flow.h"

#include <ctype.h>
#include <inttypes.h>
#include <stdio.h>
#include <stdlib.h>

enum { ACCEPTED = 0, REFUSED = 1, UNREADABLE = 2 };

struct sheet {
    uint8_t *bytes;
    size_t length;
};

struct counts {
    uint32_t slots, instructions, awaits;
};

struct buffers {
    kagari_flow_block *blocks;
    uint64_t *sets, *scratch;
    size_t blocks_len, sets_len, scratch_len;
};

static void fail(const char *what, const char *reason)
{
    fprintf(stderr, "check: %s: %s\n", what, reason);
    exit(UNREADABLE);
}

/* Memory for so many items. It is never null, also for none of them. */
static void *allocate(size_t count, size_t size)
{
    void *memory = calloc(count + 1, size);
    if (memory == NULL)
        fail("memory", "there is not enough");
    return memory;
}

/* The next character that is neither a blank nor in a comment. */
static int next_digit(FILE *file)
{
    int c = fgetc(file);
    while (c == '#' || isspace(c)) {
        if (c == '#')
            while (c != '\n' && c != EOF)
                c = fgetc(file);
        else
            c = fgetc(file);
    }
    return c;
}

/* The value of a digit in hexadecimal, or 16. */
static unsigned digit(int c)
{
    if (c >= '0' && c <= '9')
        return (unsigned)(c - '0');
    if (c >= 'A' && c <= 'F')
        return (unsigned)(c - 'A') + 10;
    if (c >= 'a' && c <= 'f')
        return (unsigned)(c - 'a') + 10;
    return 16;
}

/* Reads a sheet: pairs of digits; between them blanks, and comments from # to the end of a line. */
static struct sheet read_sheet(const char *name)
{
    FILE *file = fopen(name, "r");
    if (file == NULL)
        fail(name, "it can't be opened");

    size_t room = 256;
    struct sheet sheet = {allocate(room, 1), 0};
    for (int c = next_digit(file); c != EOF; c = next_digit(file)) {
        unsigned high = digit(c), low = digit(fgetc(file));
        if (high > 15 || low > 15)
            fail(name, "it is not in hexadecimal");
        if (sheet.length == room) {
            room *= 2;
            sheet.bytes = realloc(sheet.bytes, room);
            if (sheet.bytes == NULL)
                fail(name, "it is too long");
        }
        sheet.bytes[sheet.length++] = (uint8_t)(16 * high + low);
    }
    if (ferror(file))
        fail(name, "it can't be read");
    fclose(file);
    return sheet;
}

static uint32_t u16_at(const uint8_t *bytes)
{
    return (uint32_t)bytes[0] | (uint32_t)bytes[1] << 8;
}

static uint32_t u32_at(const uint8_t *bytes)
{
    return u16_at(bytes) | u16_at(bytes + 2) << 16;
}

/*
 * The counts that the sizes follow from: the function record's, and the await instructions (kind 1)
 * by the heads of the records. All are 0 if the sheet ends before its records do, or says too many:
 * such a sheet is refused before it needs room.
 */
static struct counts count(struct sheet sheet)
{
    const struct counts none = {0, 0, 0};
    if (sheet.length < 16)
        return none;

    struct counts counts = {u32_at(sheet.bytes + 8), u32_at(sheet.bytes + 12), 0};
    if (counts.slots > 65536 || counts.instructions > 65536)
        return none;

    size_t at = 0, before_code = 2 + (size_t)counts.slots;
    for (size_t record = 0; record < before_code + counts.instructions; record++) {
        size_t left = sheet.length - at;
        if (left < 4 || u16_at(sheet.bytes + at) < 2 || u16_at(sheet.bytes + at) > left - 2)
            return none;
        if (record >= before_code && u16_at(sheet.bytes + at + 2) == 1)
            counts.awaits++;
        at += 2 + u16_at(sheet.bytes + at);
    }
    return counts;
}

static struct buffers lend(struct counts counts)
{
    size_t w = KAGARI_FLOW_WORDS(counts.slots);
    size_t b = KAGARI_FLOW_BLOCKS(counts.instructions, w);
    struct buffers lent;
    lent.blocks_len = b;
    lent.sets_len = KAGARI_FLOW_SETS(b, counts.awaits, w);
    lent.scratch_len = KAGARI_FLOW_SCRATCH(counts.instructions, b, w);
    lent.blocks = allocate(lent.blocks_len, sizeof *lent.blocks);
    lent.sets = allocate(lent.sets_len, sizeof *lent.sets);
    lent.scratch = allocate(lent.scratch_len, sizeof *lent.scratch);
    return lent;
}

/* A set of slots. */
struct set {
    uint64_t *words;
    size_t length;
};

/* What a call is handed beside a sheet and buffers. No limits, and no added slots, are null. */
struct terms {
    kagari_flow_budget budget;
    const kagari_flow_limits *limits;
    const struct set *added;
};

static kagari_flow_answer judge(struct sheet sheet, struct terms terms, const struct buffers *lent)
{
    if (terms.limits == NULL)
        return kagari_flow_verify(sheet.bytes, sheet.length, terms.budget, lent->blocks,
                                  lent->blocks_len, lent->sets, lent->sets_len, lent->scratch,
                                  lent->scratch_len);
    if (terms.added == NULL)
        return kagari_flow_verify_within(sheet.bytes, sheet.length, terms.budget, *terms.limits,
                                         lent->blocks, lent->blocks_len, lent->sets,
                                         lent->sets_len, lent->scratch, lent->scratch_len)
            .answer;
    return kagari_flow_verify_with(sheet.bytes, sheet.length, terms.added->words,
                                   terms.added->length, terms.budget, *terms.limits, lent->blocks,
                                   lent->blocks_len, lent->sets, lent->sets_len, lent->scratch,
                                   lent->scratch_len)
        .answer;
}

static const char *name_of(uint32_t number)
{
    static const char *const names[] = {
        "accepted",   "short sheet",   "wrong kind",      "bad body",    "left over", "too many",
        "no code",    "no such slot",  "no such target",  "open end",    "no room",   "state limit",
        "work limit", "unfilled slot", "host over await", "facts limit",
        [KAGARI_FLOW_PARAMETER_TWICE] = "parameter twice",
    };
    const char *name = number < sizeof names / sizeof *names ? names[number] : NULL;
    return name != NULL ? name : "another number";
}

static void print_answer(const kagari_flow_answer *answer)
{
    if (answer->number == KAGARI_FLOW_ACCEPTED)
        printf("accepted: function %" PRIu32 ", blocks %" PRIu64 ", awaits %" PRIu64,
               answer->function, answer->blocks, answer->awaits);
    else
        printf("refused: %" PRIu32 " %s, function %" PRIu32, answer->number,
               name_of(answer->number), answer->function);
    printf(", work %" PRIu64 ", retained %" PRIu64 "\n", answer->work, answer->retained);
}

static void print_block(uint64_t number, const kagari_flow_block *block)
{
    printf("block %" PRIu64 ": instructions %" PRIu32 " to %" PRIu32 ", %s, next", number,
           block->start, block->end - 1, block->reachable ? "reached" : "not reached");
    if (block->successor_count == 0)
        printf(" none");
    if (block->successor_count > 0)
        printf(" %" PRIu32, block->successor_0);
    if (block->successor_count > 1)
        printf(" %" PRIu32, block->successor_1);
    printf("\n");
}

/* An await's part of the sets: its instruction, then the words of the slots that it saves. */
static void print_await(const uint64_t *fact, uint32_t slots)
{
    int some = 0;
    printf("await %" PRIu64 ": saves", fact[0]);
    for (uint32_t slot = 0; slot < slots; slot++)
        if (fact[1 + slot / 64] >> slot % 64 & 1) {
            printf(" %" PRIu32, slot);
            some = 1;
        }
    printf(some ? "\n" : " none\n");
}

static void print_facts(const kagari_flow_answer *answer, const struct buffers *lent,
                        uint32_t slots)
{
    size_t w = KAGARI_FLOW_WORDS(slots);
    const uint64_t *facts = lent->sets + answer->blocks * 2 * w;
    for (uint64_t number = 0; number < answer->blocks; number++)
        print_block(number, &lent->blocks[number]);
    for (uint64_t number = 0; number < answer->awaits; number++)
        print_await(facts + number * (1 + w), slots);
}

static void print_load(struct sheet sheet, const kagari_flow_answer *answer,
                       const struct buffers *lent)
{
    kagari_flow_load_answer load = kagari_flow_load(sheet.bytes, sheet.length, lent->sets,
                                                    lent->sets_len, answer->blocks, answer->awaits);
    printf("load %" PRIu64 "\n", load.load);
}

static uint64_t number(const char *digits)
{
    char *end;
    uint64_t value = strtoull(digits, &end, 10);
    if (end == digits || *end != '\0')
        fail(digits, "it is no number");
    return value;
}

/* The set of these slots, of which the script has so many. */
static struct set set_of(char **slots, int length, uint32_t count)
{
    struct set set = {allocate(KAGARI_FLOW_WORDS(count), sizeof *set.words),
                      KAGARI_FLOW_WORDS(count)};
    for (int i = 0; i < length; i++) {
        uint64_t slot = number(slots[i]);
        if (slot >= count)
            fail(slots[i], "there is no such slot");
        set.words[slot / 64] |= (uint64_t)1 << slot % 64;
    }
    return set;
}

int main(int argc, char **argv)
{
    if (argc != 2 && argc != 4 && argc < 7)
        fail("usage", "check FILE [WORK RETAINED [MOST_WORK MOST_STATE MOST_FACTS [SLOT ..]]]");
    struct terms terms = {{0, 0}, NULL, NULL};
    if (argc >= 4) {
        terms.budget.work = number(argv[2]);
        terms.budget.retained = number(argv[3]);
    }
    kagari_flow_limits limits;
    if (argc >= 7) {
        limits.work = number(argv[4]);
        limits.state = number(argv[5]);
        limits.facts = number(argv[6]);
        terms.limits = &limits;
    }

    struct sheet sheet = read_sheet(argv[1]);
    struct counts counts = count(sheet);
    struct set added = {NULL, 0};
    if (argc > 7) {
        added = set_of(argv + 7, argc - 7, counts.slots);
        terms.added = &added;
    }
    struct buffers lent = lend(counts);
    kagari_flow_answer answer = judge(sheet, terms, &lent);
    print_answer(&answer);
    if (answer.number == KAGARI_FLOW_ACCEPTED) {
        print_facts(&answer, &lent, counts.slots);
        print_load(sheet, &answer, &lent);
    }

    free(lent.scratch);
    free(lent.sets);
    free(lent.blocks);
    free(added.words);
    free(sheet.bytes);
    return answer.number == KAGARI_FLOW_ACCEPTED ? ACCEPTED : REFUSED;
}
