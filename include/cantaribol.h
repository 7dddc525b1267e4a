/* Cantaribol: designs of guarded rules, read, checked and run clock by clock.
 *
 * Link with crates/host/out/libhost.a, which `rt lib` in crates/host writes; for
 * pkg-config there is cantaribol.pc beside this file.
 *
 * Every array is a pointer and a length in entries. No pointer may be null,
 * not even with length 0. Arrays that a function writes (state, fates,
 * displays) may not overlap each other or the file. Nothing is kept between
 * calls. A clock or a run of the deepest design takes 0.9 MB of the caller's
 * stack.
 *
 * Every answer is one number; the functions below take it apart. Numbers 1 to
 * 12 are refusals and 21 to 28 reasons, as document 01 lists them; 13 and 14
 * refuse a plan and a log that are too short.
 */
#ifndef CANTARIBOL_H
#define CANTARIBOL_H

#include <stddef.h>
#include <stdint.h>

#ifdef __cplusplus
extern "C" {
#endif

/* The version of this header and of the library that goes with it. */
#define CANTARIBOL_VERSION "0.1.0"
#define CANTARIBOL_VERSION_MAJOR 0
#define CANTARIBOL_VERSION_MINOR 1
#define CANTARIBOL_VERSION_PATCH 0

/* The longest file that is read, and the least room for fates and displays. */
#define CANTARIBOL_FILE_LIMIT 32768
#define CANTARIBOL_FATE_ROOM 64
#define CANTARIBOL_DISPLAY_ROOM 4096

/* The numbers of a plan, and the least room for a log. */
#define CANTARIBOL_PLAN_SIZE 1092
#define CANTARIBOL_LOG_ROOM 4096

/* What became of a schedule entry in one clock. */
enum cantaribol_fate {
    CANTARIBOL_FIRED = 0,
    CANTARIBOL_UNAVAILABLE = 1,
    CANTARIBOL_INSIDE = 2,   /* conflict inside the rule */
    CANTARIBOL_EARLIER = 3,  /* conflict with an earlier fired rule */
    CANTARIBOL_HARDWARE = 4, /* hardware conflict */
    CANTARIBOL_STUCK = 5,
    CANTARIBOL_NOT_REACHED = 6
};

/* How a run ended, where it is not stuck (21 to 28). */
enum cantaribol_ending { CANTARIBOL_LIMIT = 0, CANTARIBOL_QUIET = 100 };

/* Reading. 0 when the file is a design, else
 *     bits 0 to 7   the refusal, 1 to 9
 *     bits 8 up     its place: an offset in the file
 */
uint64_t cantaribol_read(const uint8_t *file, size_t file_len);

/* How much a design holds, a byte each; 0 for a refused file.
 *     bits 0 to 7    instances: the state has as many entries
 *     bits 8 to 15   methods of user modules
 *     bits 16 to 23  rules
 *     bits 24 to 31  schedule entries
 */
uint64_t cantaribol_counts(const uint8_t *file, size_t file_len);

/* Where a rule's guard and body stand, or a method's body. 0, the empty part,
 * for numbers that name none, and for a refused file; else
 *     bits 0 to 15  the length in bytes
 *     bits 16 up    the offset of the first byte
 */
uint64_t cantaribol_rule_part(const uint8_t *file, size_t file_len, uint64_t rule);
uint64_t cantaribol_method_part(const uint8_t *file, size_t file_len, uint64_t instance,
                                uint64_t method);

/* The check. 0 when the design passes, and then no rule of it can get stuck, from
 * any state; else
 *     bits 0 to 7   a refusal, 1 to 9, or a reason, 21 to 28
 *     bits 8 up     its place: an offset in the file
 */
uint64_t cantaribol_check(const uint8_t *file, size_t file_len);

/* The start values. Entries of user modules stay as they are. 0, or
 *     bits 0 to 7   the refusal, 1 to 10
 *     bits 8 up     its place
 */
uint64_t cantaribol_start(const uint8_t *file, size_t file_len, int32_t *state, size_t state_len);

/* One clock. state_len is the instance count, fates_len 64 or more,
 * displays_len 4,096 or more.
 *     bits 0 to 7    0 done; 1 to 12 refused; 21 to 28 stuck, the reason
 *   refused
 *     bits 8 up      the place
 *   done
 *     bit 8          1 when a rule fired, 0 when the clock was quiet
 *     bits 16 up     how many displays were made
 *   stuck
 *     bits 8 to 15   the rule that is stuck
 *     bits 16 up     how many displays were made before
 * A refusal changes no array. A stuck clock leaves the state as it was. Fates
 * past the schedule, and displays past those made, stay as they are.
 */
uint64_t cantaribol_clock(const uint8_t *file, size_t file_len, int32_t *state, size_t state_len,
                          uint8_t *fates, size_t fates_len, int32_t *displays,
                          size_t displays_len);

/* Prepares a design for cantaribol_tick: its plan goes into the first
 * CANTARIBOL_PLAN_SIZE numbers of the array. 0, or
 *     bits 0 to 7   the refusal, 1 to 9, or 13 for a shorter array
 *     bits 8 up     its place
 * What is not 0 changes no number.
 */
uint64_t cantaribol_prepare(const uint8_t *file, size_t file_len, uint16_t *plan,
                            size_t plan_len);

/* One clock, without reading the file anew: the plan is one that
 * cantaribol_prepare filled in of this very file, and log_len is
 * CANTARIBOL_LOG_ROOM or more. What the log holds, before or after, is of no
 * account. The answer is that of cantaribol_clock; or 13 or 14 for a short plan
 * or log, which come first and change no array. By the plan of another file, or
 * any other numbers, it is safe and ends, and the answer is of no use.
 */
uint64_t cantaribol_tick(const uint8_t *file, size_t file_len, const uint16_t *plan,
                         size_t plan_len, int32_t *state, size_t state_len, uint8_t *fates,
                         size_t fates_len, int32_t *displays, size_t displays_len,
                         uint64_t *log, size_t log_len);

/* Up to n clocks.
 *     bits 0 to 7    1 to 10 refused; 0 limit; 100 quiet; 21 to 28 stuck
 *   refused
 *     bits 8 up      the place
 *   ended
 *     bits 8 to 15   the rule that is stuck, else 0
 *     bits 16 up     the clocks in which a rule fired
 */
uint64_t cantaribol_run(const uint8_t *file, size_t file_len, int32_t *state, size_t state_len,
                        uint32_t n);

/* Bits 0 to 7 of an answer: a refusal, a reason or an ending. */
static inline unsigned cantaribol_number(uint64_t answer)
{
    return (unsigned)(answer & 0xFF);
}

/* The place of a refusal, or of what fails the check. */
static inline uint64_t cantaribol_place(uint64_t answer)
{
    return answer >> 8;
}

/* The rule that is stuck in a clock or a run. */
static inline unsigned cantaribol_rule(uint64_t answer)
{
    return (unsigned)(answer >> 8 & 0xFF);
}

/* Did a rule fire in a clock that is done? */
static inline int cantaribol_fired(uint64_t answer)
{
    return (int)(answer >> 8 & 1);
}

/* The displays that a clock made, or the clocks of a run in which a rule
 * fired. */
static inline uint64_t cantaribol_count(uint64_t answer)
{
    return answer >> 16;
}

/* A refusal, 1 to 14, or a reason, 21 to 28, in words; "" for any other
 * number. */
static inline const char *cantaribol_words(unsigned number)
{
    static const char *const refusals[] = {
        "the file is over 32,768 bytes",
        "the record is cut short by the end of the file",
        "the record begins with an unknown mark",
        "a method or rule whose latest instance is no user module, "
        "or a byte after the schedule",
        "the record is the 65th instance, the 129th method or the 65th rule",
        "the record has a field out of its range, or a kind and a result that disagree",
        "the record has a body with an unknown or out-of-range byte, or of depth 17, "
        "or that is not exactly its expressions",
        "the schedule names a missing rule, or one twice",
        "the file ends without a schedule",
        "the state's length is not the instance count",
        "the fate buffer has under 64 entries",
        "the display buffer has under 4,096 entries",
        "the plan has under 1,092 numbers",
        "the log has under 4,096 entries",
    };
    static const char *const reasons[] = {
        "wrong kind of value",
        "no such local",
        "instance missing or not below the caller's",
        "no such method or port",
        "wrong argument count",
        "action in a pure place",
        "65th call",
        "17th live local",
    };
    if (number >= 1 && number <= 14)
        return refusals[number - 1];
    if (number >= 21 && number <= 28)
        return reasons[number - 21];
    return "";
}

/* The rule that a schedule entry names; -1 when there is no such entry, and for
 * a refused file. The schedule's entries are the last bytes of the file. */
static inline int cantaribol_entry_rule(const uint8_t *file, size_t file_len, size_t entry)
{
    size_t entries = (size_t)(cantaribol_counts(file, file_len) >> 24);
    return entry < entries ? file[file_len - entries + entry] : -1;
}

/* A byte of the file; 0 past its end, so that nothing is read there. */
static inline unsigned cantaribol_byte(const uint8_t *file, size_t file_len, size_t at)
{
    return at < file_len ? file[at] : 0;
}

/* Does a record with this mark begin here? */
static inline int cantaribol_is_mark(const uint8_t *file, size_t file_len, size_t at,
                                     const char *mark)
{
    return cantaribol_byte(file, file_len, at) == (unsigned char)mark[0] &&
           cantaribol_byte(file, file_len, at + 1) == (unsigned char)mark[1];
}

/* The length of the record that begins here, in a design; SC is the last. */
static inline size_t cantaribol_record_length(const uint8_t *file, size_t file_len, size_t at)
{
    size_t before = 2;
    if (cantaribol_is_mark(file, file_len, at, "RG"))
        return 6;
    if (cantaribol_is_mark(file, file_len, at, "CR"))
        return 7;
    if (cantaribol_is_mark(file, file_len, at, "UM"))
        return 2;
    if (cantaribol_is_mark(file, file_len, at, "SC"))
        return file_len - at;
    /* A method has its kind, its result and its parameters before the length. */
    if (cantaribol_is_mark(file, file_len, at, "MD"))
        before = 5 + (size_t)cantaribol_byte(file, file_len, at + 4);
    return before + 2 + cantaribol_byte(file, file_len, at + before) +
           256 * (size_t)cantaribol_byte(file, file_len, at + before + 1);
}

/* Is a state entry a register's, and not a user module's? 0 also when there is
 * no such entry, and for a refused file. */
static inline int cantaribol_is_register(const uint8_t *file, size_t file_len, size_t instance)
{
    size_t at, seen = 0;
    if (instance >= (size_t)(cantaribol_counts(file, file_len) & 0xFF))
        return 0;
    for (at = 0; at < file_len; at += cantaribol_record_length(file, file_len, at)) {
        int is_register = cantaribol_is_mark(file, file_len, at, "RG") ||
                          cantaribol_is_mark(file, file_len, at, "CR");
        int is_user = cantaribol_is_mark(file, file_len, at, "UM");
        if ((is_register || is_user) && seen++ == instance)
            return is_register;
    }
    return 0;
}

#ifdef __cplusplus
}
#endif

#endif
