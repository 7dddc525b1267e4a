/* Tests of what the header itself computes: the words, and the getters on the
 * bundled designs.
 *
 *     cc include/test.c crates/host/out/libhost.a -o test
 *     ./test designs
 *
 * The last line is 'N passed, M failed'. Exit status: 0 when none failed, else 1.
 */
#include "cantaribol.h"

#include <limits.h>
#include <stdio.h>
#include <stdlib.h>
#include <string.h>

/* Rules in schedule order, a hex digit each, as the design's .hex says. R for a
 * register and - for a user module, as the last line of its listing has a value
 * or a dash. */
struct design {
    const char *name, *schedule, *instances;
};

static const struct design designs[] = {
    {"p10", "0", "R-"},
    {"gcd", "2301", "RRRR--"},
    {"pipeline-fifo-1", "10", "RRR--"},
    {"pipeline-fifo-2", "01", "RRR--"},
    {"bypass-fifo-1", "10", "RRR--"},
    {"bypass-fifo-2", "01", "RRR--"},
    {"traffic-signals", "1234560", "RRR-"},
    {"traffic-requests", "7123456890A", "RRR-R-"},
    {"limits-alarm", "01", "R-R---R-"},
    {"order-abc", "30124", "RRRRR-R-"},
    {"order-bac", "31024", "RRRRR-R-"},
    {"queue-drain-first", "10", "RRR-"},
    {"queue-feed-first", "01", "RRR-"},
    {"queue-feed-first-through", "01", "RRR-"},
};

static uint8_t file[CANTARIBOL_FILE_LIMIT];
static size_t length;
static int fine;

#define WANT(holds) want(holds, #holds, __LINE__)

static void want(int holds, const char *words, int line)
{
    if (!holds) {
        printf("line %d: %s does not hold\n", line, words);
        fine = 0;
    }
}

static void load(const char *folder, const char *name)
{
    char path[1024];
    FILE *from;
    snprintf(path, sizeof path, "%s/%s.bin", folder, name);
    from = fopen(path, "rb");
    length = 0;
    if (from == NULL) {
        perror(path);
        fine = 0;
        return;
    }
    length = fread(file, 1, sizeof file, from);
    fclose(from);
}

static void schedule(const struct design *design)
{
    size_t entries = strlen(design->schedule);
    WANT(cantaribol_counts(file, length) >> 24 == entries);
    for (size_t entry = 0; entry < entries; entry++) {
        char digit[2] = {design->schedule[entry], 0};
        WANT(cantaribol_entry_rule(file, length, entry) == strtol(digit, NULL, 16));
    }
    WANT(cantaribol_entry_rule(file, length, entries) == -1);
    WANT(cantaribol_entry_rule(file, length, SIZE_MAX) == -1);
}

static void registers(const struct design *design)
{
    size_t instances = strlen(design->instances);
    WANT((cantaribol_counts(file, length) & 0xFF) == instances);
    for (size_t at = 0; at < instances; at++)
        WANT(cantaribol_is_register(file, length, at) == (design->instances[at] == 'R'));
    WANT(cantaribol_is_register(file, length, instances) == 0);
    WANT(cantaribol_is_register(file, length, SIZE_MAX) == 0);
}

/* In memory of its own, so that a checker of memory sees a step past its end. */
static void cut(size_t at)
{
    uint8_t *part = (uint8_t *)malloc(at + (at == 0));
    if (part == NULL)
        exit(1);
    memcpy(part, file, at);
    WANT(cantaribol_read(part, at) != 0);
    WANT(cantaribol_entry_rule(part, at, 0) == -1);
    WANT(cantaribol_is_register(part, at, 0) == 0);
    /* The walk by itself, over what is no design. */
    for (size_t from = 0; from < at;) {
        size_t step = cantaribol_record_length(part, at, from);
        WANT(step >= 2);
        from += step;
    }
    free(part);
}

/* Every beginning of a design is refused: its schedule comes last. */
static void cuts(void)
{
    for (size_t at = 0; at < length; at++)
        cut(at);
}

/* What a clock leaves, by the file and by its plan. */
struct board {
    int32_t state[64], displays[CANTARIBOL_DISPLAY_ROOM];
    uint8_t fates[CANTARIBOL_FATE_ROOM];
};

static uint64_t clocked(struct board *board, size_t instances)
{
    return cantaribol_clock(file, length, board->state, instances, board->fates,
                            CANTARIBOL_FATE_ROOM, board->displays, CANTARIBOL_DISPLAY_ROOM);
}

static uint64_t ticked(const uint16_t *plan, struct board *board, size_t instances)
{
    static uint64_t log[CANTARIBOL_LOG_ROOM];
    return cantaribol_tick(file, length, plan, CANTARIBOL_PLAN_SIZE, board->state, instances,
                           board->fates, CANTARIBOL_FATE_ROOM, board->displays,
                           CANTARIBOL_DISPLAY_ROOM, log, CANTARIBOL_LOG_ROOM);
}

/* Clock by clock a tick by the plan is a clock of the file. */
static void ticks(void)
{
    static uint16_t plan[CANTARIBOL_PLAN_SIZE];
    static struct board one, other;
    size_t instances = cantaribol_counts(file, length) & 0xFF;
    memset(&one, 0, sizeof one);
    WANT(cantaribol_prepare(file, length, plan, CANTARIBOL_PLAN_SIZE - 1) == 13);
    WANT(cantaribol_prepare(file, length, plan, CANTARIBOL_PLAN_SIZE) == 0);
    WANT(cantaribol_start(file, length, one.state, instances) == 0);
    other = one;
    for (int clock = 0; clock < 20; clock++) {
        WANT(clocked(&one, instances) == ticked(plan, &other, instances));
        WANT(memcmp(&one, &other, sizeof one) == 0);
    }
    WANT(ticked(plan, &other, instances + 1) == 10);
}

/* A register behind a body of 418 bytes, which needs both bytes of its length:
 * a block of 32 sums. */
static void behind_a_long_body(void)
{
    static const uint8_t sum[] = {9, 4, 0, 1, 0, 0, 0, 0, 1, 0, 0, 0, 0};
    memcpy(file, "UMMD\0\1\0\xA2\1\x07\x20", 11);
    for (length = 11; length < 11 + 32 * sizeof sum; length += sizeof sum)
        memcpy(file + length, sum, sizeof sum);
    memcpy(file + length, "RG\5\0\0\0SC\0", 9);
    length += 9;
    WANT(cantaribol_read(file, length) == 0);
    WANT(cantaribol_is_register(file, length, 0) == 0);
    WANT(cantaribol_is_register(file, length, 1) == 1);
}

static void is(unsigned number, const char *words)
{
    WANT(strcmp(cantaribol_words(number), words) == 0);
}

static void some_words(void)
{
    is(1, "the file is over 32,768 bytes");
    is(2, "the record is cut short by the end of the file");
    is(8, "the schedule names a missing rule, or one twice");
    is(9, "the file ends without a schedule");
    is(12, "the display buffer has under 4,096 entries");
    is(13, "the plan has under 1,092 numbers");
    is(14, "the log has under 4,096 entries");
    is(21, "wrong kind of value");
    is(26, "action in a pure place");
    is(28, "17th live local");
}

static int has_words(unsigned number)
{
    return (number >= 1 && number <= 14) || (number >= 21 && number <= 28);
}

static void words_and_none(void)
{
    for (unsigned number = 0; number < 300; number++)
        WANT((*cantaribol_words(number) != 0) == has_words(number));
    is(UINT_MAX, "");
}

/* No two numbers say the same. */
static void words_apart(void)
{
    for (unsigned one = 0; one < 29; one++)
        for (unsigned other = 0; other < one; other++)
            if (has_words(one) && has_words(other))
                WANT(strcmp(cantaribol_words(one), cantaribol_words(other)) != 0);
}

static void version(void)
{
    char numbers[32];
    snprintf(numbers, sizeof numbers, "%d.%d.%d", CANTARIBOL_VERSION_MAJOR,
             CANTARIBOL_VERSION_MINOR, CANTARIBOL_VERSION_PATCH);
    WANT(strcmp(CANTARIBOL_VERSION, numbers) == 0);
}

static int passed, failed;

static void count(const char *test, const char *of)
{
    if (!fine)
        printf("failed: %s %s\n", test, of);
    passed += fine;
    failed += !fine;
    fine = 1;
}

static void test_design(const char *folder, const struct design *design)
{
    load(folder, design->name);
    WANT(length > 0 && cantaribol_read(file, length) == 0);
    count("reading", design->name);
    schedule(design);
    count("schedule of", design->name);
    registers(design);
    count("registers of", design->name);
    ticks();
    count("ticks of", design->name);
    cuts();
    count("beginnings of", design->name);
}

static void test_words(void)
{
    some_words();
    count("words", "of some numbers");
    words_and_none();
    count("words", "or none");
    words_apart();
    count("words", "that differ");
    version();
    count("version", CANTARIBOL_VERSION);
}

int main(int count_of_words, char **words)
{
    const char *folder = count_of_words > 1 ? words[1] : "designs";
    fine = 1;
    for (size_t at = 0; at < sizeof designs / sizeof *designs; at++)
        test_design(folder, &designs[at]);
    behind_a_long_body();
    count("register", "behind a long body");
    test_words();
    printf("%d passed, %d failed\n", passed, failed);
    return failed != 0;
}
