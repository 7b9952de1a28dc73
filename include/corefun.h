/* The CoreFun engine's calls for C: the static library that `make target/staticlib/libexports.a` writes.
 *
 * A slice is a pointer and a length in bytes; where the length is 0 the pointer may be NULL. What a call writes (workspace,
 * output, journal, answers) overlaps nothing else that it is given: where NDEBUG is not defined, an assertion says so. Nothing is kept between
 * calls, and calls on different buffers may run at the same time. No call takes more than 1,088 KB of stack, as measured.
 *
 * Every call answers, whatever the bytes are. A refusal leaves output and journal as they were. The workspace is all zero after
 * every call that has one, but unchanged after refusal 1. What each refusal means and what to do about it: docs/USING.md.
 */
#ifndef COREFUN_H
#define COREFUN_H

#include <assert.h>
#include <stddef.h>
#include <stdint.h>

#ifdef __cplusplus
extern "C" {
#endif

/* The version of the engine and of this header; CHANGELOG.md says what changes with it. */
#define COREFUN_VERSION "0.1.0"

/* What a call answers. */
typedef struct corefun_answer {
    uint64_t number; /* the refusal's number, 1 to 20, or 0 where the call is accepted */
    uint64_t place;  /* 2 to 8: the offset of a field in the program; 12 to 16: a term entry; else 0 */
    uint64_t length; /* of what fills the output from its start, or of the value that the journal now holds; else 0 */
    uint64_t steps;  /* that an accepted run, conversion or rollback took; else 0 */
} corefun_answer;

/* The numbers of refusals. */
typedef enum corefun_refusal {
    COREFUN_ACCEPTED = 0,
    COREFUN_REFUSED_WORKSPACE = 1,
    COREFUN_REFUSED_FIELD = 2,
    COREFUN_REFUSED_COUNT = 3,
    COREFUN_REFUSED_REFERENCE = 4,
    COREFUN_REFUSED_TYPE_ENTRY = 5,
    COREFUN_REFUSED_MISMATCH = 6,
    COREFUN_REFUSED_SCOPE = 7,
    COREFUN_REFUSED_USE = 8,
    COREFUN_REFUSED_NO_FUNCTION = 9,
    COREFUN_REFUSED_VALUE_BYTES = 10,
    COREFUN_REFUSED_VALUE_TYPE = 11,
    COREFUN_REFUSED_FUEL = 12,
    COREFUN_REFUSED_HEIGHT = 13,
    COREFUN_REFUSED_SIZE = 14,
    COREFUN_REFUSED_FIRST_MATCH = 15,
    COREFUN_REFUSED_NO_INPUT = 16,
    COREFUN_REFUSED_OUTPUT = 17,
    COREFUN_REFUSED_JOURNAL = 18,
    COREFUN_REFUSED_NOTHING_STANDING = 19,
    COREFUN_REFUSED_JOURNAL_FULL = 20
} corefun_refusal;

/* What a refusal says; "accepted" for 0. */
static inline const char *corefun_meaning(uint64_t number)
{
    static const char *const meanings[] = {
        "accepted",
        "the workspace is too short",
        "a field has a bad tag, kind, length or order",
        "too many entries, parameters or bytes",
        "a reference is absent or not lower, or a term is not used just once",
        "a named type is not closed, or has over 1,024 nodes",
        "types differ, arguments are too many or too few, or a type is too large",
        "a variable is not in scope, or over 32 are",
        "a variable is not used as the rules of use ask",
        "there is no such function",
        "value bytes are malformed, over the limit or wrong in number",
        "a value is not of its type",
        "the fuel is spent",
        "the height passes 1,024",
        "a value is over 1,024 bytes",
        "the left branch may yield the right branch's value",
        "no input leads to this value",
        "the output is too short",
        "the journal is malformed",
        "no conversion stands",
        "64 conversions stand already, or the bytes do not fit"
    };
    return number < sizeof meanings / sizeof *meanings ? meanings[number] : "no refusal has this number";
}

/* Bytes of workspace that a call needs: `fuel` is 0 for a call that has none. */
#define COREFUN_WORKSPACE(fuel) ((size_t)32768 + (size_t)32 * (size_t)(fuel))

/* A value has at most so many bytes, so that an output of this length is never too short for one. */
#define COREFUN_VALUE_BYTES 1024

/* The fields of all entries of a journal have at most so many bytes: 64 entries, each of tag and length (3), function and steps (6), and
 * ancillae of at most COREFUN_VALUE_BYTES together. An output of this length is never too short for corefun_workshop. */
#define COREFUN_ENTRIES_BYTES ((size_t)64 * (3 + 6 + COREFUN_VALUE_BYTES))

/* Bytes of the line that answers a call of a script. */
#define COREFUN_LINE_BYTES 7

/* Is the program accepted? It needs COREFUN_WORKSPACE(0). */
void corefun_check(
    const uint8_t *program, size_t program_length,
    uint8_t *workspace, size_t workspace_length,
    corefun_answer *answer);

/* Runs a function forward on a value, within so many steps. It needs COREFUN_WORKSPACE(fuel). */
void corefun_forward(
    const uint8_t *program, size_t program_length,
    uint16_t function,
    const uint8_t *ancillae, size_t ancillae_length,
    const uint8_t *value, size_t value_length,
    uint16_t fuel,
    uint8_t *workspace, size_t workspace_length,
    uint8_t *output, size_t output_length,
    corefun_answer *answer);

/* Runs a function backward: the output becomes the input that the function carries to the value. */
void corefun_backward(
    const uint8_t *program, size_t program_length,
    uint16_t function,
    const uint8_t *ancillae, size_t ancillae_length,
    const uint8_t *value, size_t value_length,
    uint16_t fuel,
    uint8_t *workspace, size_t workspace_length,
    uint8_t *output, size_t output_length,
    corefun_answer *answer);

/* Opens a journal with a record: the buffer becomes the record's field and zeros. It needs COREFUN_WORKSPACE(0). */
void corefun_open(
    const uint8_t *program, size_t program_length,
    const uint8_t *record, size_t record_length,
    uint8_t *workspace, size_t workspace_length,
    uint8_t *journal, size_t journal_length,
    corefun_answer *answer);

/* Converts the held record by a function forward, and adds the conversion to those that stand. */
void corefun_convert(
    const uint8_t *program, size_t program_length,
    uint16_t function,
    const uint8_t *ancillae, size_t ancillae_length,
    uint16_t fuel,
    uint8_t *workspace, size_t workspace_length,
    uint8_t *journal, size_t journal_length,
    corefun_answer *answer);

/* Rolls the newest standing conversion back. */
void corefun_rollback(
    const uint8_t *program, size_t program_length,
    uint16_t fuel,
    uint8_t *workspace, size_t workspace_length,
    uint8_t *journal, size_t journal_length,
    corefun_answer *answer);

/* What the nurse's reader answers. */
typedef struct corefun_nurse_answer {
    uint64_t number;   /* the refusal's number, 17 or 18, or 0 where the call is accepted */
    uint64_t place;    /* 0 */
    uint64_t length;   /* of the held value, which fills the output from its start; 0 where the call is refused */
    uint64_t standing; /* how many conversions stand; 0 where the call is refused */
} corefun_nurse_answer;

/* Reads a journal at the bedside: the held value fills the output, and nothing else is told but how many conversions stand. It needs no
 * program and no workspace. Refused are 18, a malformed journal, then 17, an output too short; COREFUN_VALUE_BYTES are always enough. */
void corefun_nurse(
    const uint8_t *journal, size_t journal_length,
    uint8_t *output, size_t output_length,
    corefun_nurse_answer *answer);

/* Reads a journal at the desk: the fields of all standing conversions, oldest first, fill the output as they stand. It needs no program and
 * no workspace. Refused are 18, then 17, as above; COREFUN_ENTRIES_BYTES are always enough. */
void corefun_workshop(
    const uint8_t *journal, size_t journal_length,
    uint8_t *output, size_t output_length,
    corefun_answer *answer);

/* How the playing of a script ended. */
typedef enum corefun_ending {
    COREFUN_PLAYED = 0,        /* `at` is how many calls */
    COREFUN_MALFORMED = 1,     /* no call stands at offset `at` of the script, or no open at its start: nothing was played */
    COREFUN_TOO_WIDE = 2,      /* the call at `at` names a longer buffer than the journal's: nothing was played */
    COREFUN_SHORT_ANSWERS = 3, /* there is no room for all answers: nothing was played */
    COREFUN_UNOPENED = 4,      /* the first open is refused with `number` and `place` */
    COREFUN_CUT = 5            /* the buffer of the call at `at` would cut the journal's fields: the calls before stand played */
} corefun_ending;

typedef struct corefun_replay_answer {
    uint64_t ending; /* a corefun_ending */
    uint64_t at;
    uint64_t number;
    uint64_t place;
} corefun_replay_answer;

/* Plays a script of open, convert and rollback calls on one journal (the form of scripts and answers: docs/USING.md). Each answer
 * takes COREFUN_LINE_BYTES of `answers`. */
void corefun_replay(
    const uint8_t *program, size_t program_length,
    const uint8_t *script, size_t script_length,
    uint8_t *workspace, size_t workspace_length,
    uint8_t *journal, size_t journal_length,
    uint8_t *answers, size_t answers_length,
    corefun_replay_answer *answer);

/* What follows stands between the calls above and those who make them: it lets NULL stand for no bytes, and asserts that what is written is
 * apart from all else. The calls keep their names. */

/* A slice of length 0 may be NULL; the library is given a byte that it does not look at. */
static inline const uint8_t *corefun_given(const uint8_t *bytes)
{
    static const uint8_t none = 0;
    return bytes ? bytes : &none;
}

static inline uint8_t *corefun_lent(uint8_t *bytes)
{
    static uint8_t none = 0;
    return bytes ? bytes : &none;
}

/* Have two slices no byte in common? */
static inline int corefun_apart(const void *a, size_t a_length, const void *b, size_t b_length)
{
    uintptr_t a_start = (uintptr_t)a, b_start = (uintptr_t)b;
    return a_length == 0 || b_length == 0 || a_start + a_length <= b_start || b_start + b_length <= a_start;
}

/* Are three slices that are written, the answer last, apart from each other, and the first two from three that are read? */
static inline int corefun_all_apart(
    const void *first, size_t first_length, const void *second, size_t second_length, const void *answer, size_t answer_length,
    const void *p, size_t p_length, const void *q, size_t q_length, const void *r, size_t r_length)
{
    return corefun_apart(first, first_length, second, second_length)
        && corefun_apart(first, first_length, answer, answer_length)
        && corefun_apart(second, second_length, answer, answer_length)
        && corefun_apart(first, first_length, p, p_length) && corefun_apart(first, first_length, q, q_length)
        && corefun_apart(first, first_length, r, r_length) && corefun_apart(second, second_length, p, p_length)
        && corefun_apart(second, second_length, q, q_length) && corefun_apart(second, second_length, r, r_length)
        && corefun_apart(answer, answer_length, p, p_length) && corefun_apart(answer, answer_length, q, q_length)
        && corefun_apart(answer, answer_length, r, r_length);
}

static inline void corefun_check_apart(
    const uint8_t *program, size_t program_length, uint8_t *workspace, size_t workspace_length, corefun_answer *answer)
{
    assert(corefun_all_apart(workspace, workspace_length, NULL, 0, answer, sizeof *answer, program, program_length, NULL, 0, NULL, 0));
    corefun_check(corefun_given(program), program_length, corefun_lent(workspace), workspace_length, answer);
}

static inline void corefun_forward_apart(
    const uint8_t *program, size_t program_length, uint16_t function, const uint8_t *ancillae, size_t ancillae_length,
    const uint8_t *value, size_t value_length, uint16_t fuel, uint8_t *workspace, size_t workspace_length,
    uint8_t *output, size_t output_length, corefun_answer *answer)
{
    assert(corefun_all_apart(workspace, workspace_length, output, output_length, answer, sizeof *answer,
        program, program_length, ancillae, ancillae_length, value, value_length));
    corefun_forward(corefun_given(program), program_length, function, corefun_given(ancillae), ancillae_length,
        corefun_given(value), value_length, fuel, corefun_lent(workspace), workspace_length,
        corefun_lent(output), output_length, answer);
}

static inline void corefun_backward_apart(
    const uint8_t *program, size_t program_length, uint16_t function, const uint8_t *ancillae, size_t ancillae_length,
    const uint8_t *value, size_t value_length, uint16_t fuel, uint8_t *workspace, size_t workspace_length,
    uint8_t *output, size_t output_length, corefun_answer *answer)
{
    assert(corefun_all_apart(workspace, workspace_length, output, output_length, answer, sizeof *answer,
        program, program_length, ancillae, ancillae_length, value, value_length));
    corefun_backward(corefun_given(program), program_length, function, corefun_given(ancillae), ancillae_length,
        corefun_given(value), value_length, fuel, corefun_lent(workspace), workspace_length,
        corefun_lent(output), output_length, answer);
}

static inline void corefun_open_apart(
    const uint8_t *program, size_t program_length, const uint8_t *record, size_t record_length,
    uint8_t *workspace, size_t workspace_length, uint8_t *journal, size_t journal_length, corefun_answer *answer)
{
    assert(corefun_all_apart(workspace, workspace_length, journal, journal_length, answer, sizeof *answer,
        program, program_length, record, record_length, NULL, 0));
    corefun_open(corefun_given(program), program_length, corefun_given(record), record_length,
        corefun_lent(workspace), workspace_length, corefun_lent(journal), journal_length, answer);
}

static inline void corefun_convert_apart(
    const uint8_t *program, size_t program_length, uint16_t function, const uint8_t *ancillae, size_t ancillae_length,
    uint16_t fuel, uint8_t *workspace, size_t workspace_length, uint8_t *journal, size_t journal_length, corefun_answer *answer)
{
    assert(corefun_all_apart(workspace, workspace_length, journal, journal_length, answer, sizeof *answer,
        program, program_length, ancillae, ancillae_length, NULL, 0));
    corefun_convert(corefun_given(program), program_length, function, corefun_given(ancillae), ancillae_length, fuel,
        corefun_lent(workspace), workspace_length, corefun_lent(journal), journal_length, answer);
}

static inline void corefun_rollback_apart(
    const uint8_t *program, size_t program_length, uint16_t fuel, uint8_t *workspace, size_t workspace_length,
    uint8_t *journal, size_t journal_length, corefun_answer *answer)
{
    assert(corefun_all_apart(workspace, workspace_length, journal, journal_length, answer, sizeof *answer,
        program, program_length, NULL, 0, NULL, 0));
    corefun_rollback(corefun_given(program), program_length, fuel, corefun_lent(workspace), workspace_length,
        corefun_lent(journal), journal_length, answer);
}

static inline void corefun_nurse_apart(
    const uint8_t *journal, size_t journal_length, uint8_t *output, size_t output_length, corefun_nurse_answer *answer)
{
    assert(corefun_all_apart(output, output_length, NULL, 0, answer, sizeof *answer, journal, journal_length, NULL, 0, NULL, 0));
    corefun_nurse(corefun_given(journal), journal_length, corefun_lent(output), output_length, answer);
}

static inline void corefun_workshop_apart(
    const uint8_t *journal, size_t journal_length, uint8_t *output, size_t output_length, corefun_answer *answer)
{
    assert(corefun_all_apart(output, output_length, NULL, 0, answer, sizeof *answer, journal, journal_length, NULL, 0, NULL, 0));
    corefun_workshop(corefun_given(journal), journal_length, corefun_lent(output), output_length, answer);
}

static inline void corefun_replay_apart(
    const uint8_t *program, size_t program_length, const uint8_t *script, size_t script_length,
    uint8_t *workspace, size_t workspace_length, uint8_t *journal, size_t journal_length,
    uint8_t *answers, size_t answers_length, corefun_replay_answer *answer)
{
    assert(corefun_all_apart(workspace, workspace_length, journal, journal_length, answer, sizeof *answer,
        program, program_length, script, script_length, answers, answers_length));
    assert(corefun_all_apart(answers, answers_length, NULL, 0, NULL, 0, program, program_length, script, script_length, NULL, 0));
    corefun_replay(corefun_given(program), program_length, corefun_given(script), script_length,
        corefun_lent(workspace), workspace_length, corefun_lent(journal), journal_length,
        corefun_lent(answers), answers_length, answer);
}

#define corefun_check corefun_check_apart
#define corefun_forward corefun_forward_apart
#define corefun_backward corefun_backward_apart
#define corefun_open corefun_open_apart
#define corefun_convert corefun_convert_apart
#define corefun_rollback corefun_rollback_apart
#define corefun_nurse corefun_nurse_apart
#define corefun_workshop corefun_workshop_apart
#define corefun_replay corefun_replay_apart

#ifdef __cplusplus
}
#endif

#endif
