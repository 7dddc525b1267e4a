/* Runs a design file one clock at a time and prints each clock's fates and
 * displays.
 *
 *     cc include/example.c crates/host/out/libhost.a -o example
 *     ./example designs/gcd.bin 20
 *
 * With -l before the file, each fate stands after its rule's number, and the
 * registers come last.
 *
 * Exit status: 0 limit or quiet, 1 refused or stuck, 2 usage or file at fault.
 */
#include "cantaribol.h"

#include <stdio.h>
#include <stdlib.h>
#include <string.h>

/* One byte more than is allowed, so that a longer file is refused. */
static uint8_t file[CANTARIBOL_FILE_LIMIT + 1];
static uint8_t fates[CANTARIBOL_FATE_ROOM];
static int32_t displays[CANTARIBOL_DISPLAY_ROOM];
static int32_t state[64];
/* The file is read once: each clock goes by the plan. */
static uint16_t plan[CANTARIBOL_PLAN_SIZE];
static uint64_t events[CANTARIBOL_LOG_ROOM];
static size_t length, instances, entries;
static int is_long;

static int load(const char *path)
{
    FILE *from = fopen(path, "rb");
    if (from == NULL)
        return 0;
    length = fread(file, 1, sizeof file, from);
    int fine = !ferror(from);
    fclose(from);
    return fine;
}

/* Numbers for programs on standard output, words for people on the other. */
static int refused(uint64_t answer)
{
    unsigned number = cantaribol_number(answer);
    unsigned long long place = cantaribol_place(answer);
    printf("REFUSED %u %llu\n", number, place);
    fprintf(stderr, "%s (number %u, place %llu)\n", cantaribol_words(number), number, place);
    return 1;
}

static int stuck(unsigned long clock, uint64_t answer)
{
    unsigned number = cantaribol_number(answer), rule = cantaribol_rule(answer);
    printf("STUCK %lu %u %u\n", clock, rule, number);
    fprintf(stderr, "rule %u is stuck: %s (number %u)\n", rule, cantaribol_words(number), number);
    return 1;
}

static void print_fate(size_t entry)
{
    if (is_long)
        printf(entry == 0 ? "%d" : " %d", cantaribol_entry_rule(file, length, entry));
    putchar("FUAEHS-"[fates[entry]]);
}

static void print_clock(unsigned long clock, uint64_t made)
{
    printf("%lu ", clock);
    if (entries == 0)
        putchar('.');
    for (size_t entry = 0; entry < entries; entry++)
        print_fate(entry);
    for (uint64_t at = 0; at < made; at++)
        printf(" %ld", (long)displays[at]);
    putchar('\n');
}

static void print_registers(void)
{
    for (size_t instance = 0; instance < instances; instance++)
        if (cantaribol_is_register(file, length, instance))
            printf("instance %lu: %ld\n", (unsigned long)instance, (long)state[instance]);
}

/* Ends as a run does: stuck before quiet, quiet before limit. */
static int run(unsigned long clocks)
{
    for (unsigned long clock = 0; clock < clocks; clock++) {
        uint64_t answer = cantaribol_tick(file, length, plan, CANTARIBOL_PLAN_SIZE, state,
                                          instances, fates, sizeof fates, displays,
                                          CANTARIBOL_DISPLAY_ROOM, events, CANTARIBOL_LOG_ROOM);
        unsigned number = cantaribol_number(answer);
        if (number >= 1 && number <= 14)
            return refused(answer);
        print_clock(clock, cantaribol_count(answer));
        if (number != 0)
            return stuck(clock, answer);
        if (!cantaribol_fired(answer)) {
            printf("QUIET %lu\n", clock);
            return 0;
        }
    }
    printf("LIMIT %lu\n", clocks);
    return 0;
}

static int start(void)
{
    uint64_t answer = cantaribol_prepare(file, length, plan, CANTARIBOL_PLAN_SIZE);
    uint64_t counts = cantaribol_counts(file, length);
    instances = counts & 0xFF;
    entries = counts >> 24;
    if (answer == 0)
        answer = cantaribol_start(file, length, state, instances);
    return answer == 0 ? 0 : refused(answer);
}

int main(int count, char **words)
{
    is_long = count > 1 && strcmp(words[1], "-l") == 0;
    count -= is_long;
    words += is_long;
    if (count < 2 || count > 3) {
        fprintf(stderr, "usage: example [-l] FILE [CLOCKS]\n");
        return 2;
    }
    if (!load(words[1])) {
        perror(words[1]);
        return 2;
    }
    int status = start();
    if (status == 0) {
        status = run(count == 3 ? strtoul(words[2], NULL, 10) : 20);
        if (is_long)
            print_registers();
    }
    return status;
}
