/* A journal that is opened, converted, read and rolled back, called from C; then the same calls as a script. The program is the one of
 * examples/programs/plus.txt, its bytes in a file:
 *
 *     cc -I include examples/c/journal.c target/staticlib/libexports.a -o journal
 *     ./journal plus.cf
 *
 * It prints an answer a line: ok JOURNAL, held LENGTH STEPS JOURNAL, or refused NUMBER PLACE; of the two readers held VALUE COUNT and
 * bytes BYTES; then the script's answers.
 */
#include <corefun.h>

#include <stdio.h>
#include <stdlib.h>

enum { PLUS = 0, FUEL = 28, MOST_PROGRAM_BYTES = 32768, BUFFER = 40 };

/* Nat n is n times 04 02, then 04 01 00. */
static const uint8_t two[] = {4, 2, 4, 2, 4, 1, 0};
static const uint8_t three[] = {4, 2, 4, 2, 4, 2, 4, 1, 0};

/* The four calls of `main` that write the journal, each in a buffer of 40 bytes. */
static const uint8_t script[] = {
    0x31, 0, 0, 0, BUFFER, 0, sizeof three, 4, 2, 4, 2, 4, 2, 4, 1, 0,
    0x32, 0, 0, 0, BUFFER, 0, FUEL, 0, PLUS, 0, sizeof two, 4, 2, 4, 2, 4, 1, 0,
    0x33, 0, 0, 0, BUFFER, 0, FUEL,
    0x33, 0, 0, 0, BUFFER, 0, FUEL,
};

static uint8_t program[MOST_PROGRAM_BYTES + 1];
static uint8_t workspace[COREFUN_WORKSPACE(FUEL)];
static uint8_t journal[BUFFER];
static uint8_t answers[4 * COREFUN_LINE_BYTES];

static void print_bytes(const uint8_t *bytes, size_t length, const char *end) {
    if (length == 0) printf("-");
    for (size_t i = 0; i < length; i++) printf("%02x", (unsigned)bytes[i]);
    printf("%s", end);
}

static void print_refusal(uint64_t number, uint64_t place) {
    printf("refused %llu %llu\n", (unsigned long long)number, (unsigned long long)place);
}

static void print_answer(const corefun_answer *answer, int is_open) {
    if (answer->number != 0) {
        print_refusal(answer->number, answer->place);
        return;
    }
    if (is_open) {
        printf("ok ");
    } else {
        printf("held %llu %llu ", (unsigned long long)answer->length, (unsigned long long)answer->steps);
    }
    print_bytes(journal, sizeof journal, "\n");
}

/* The journal as it stands, read at the bedside and at the desk. No reader writes more than the journal's own bytes. */
static void read_journal(void) {
    static uint8_t output[BUFFER];
    corefun_nurse_answer seen;
    corefun_nurse(journal, sizeof journal, output, sizeof output, &seen);
    if (seen.number != 0) {
        print_refusal(seen.number, seen.place);
    } else {
        printf("held ");
        print_bytes(output, (size_t)seen.length, " ");
        printf("%llu\n", (unsigned long long)seen.standing);
    }
    corefun_answer entries;
    corefun_workshop(journal, sizeof journal, output, sizeof output, &entries);
    if (entries.number != 0) {
        print_refusal(entries.number, entries.place);
    } else {
        printf("bytes ");
        print_bytes(output, (size_t)entries.length, "\n");
    }
}

int main(int count, char **words) {
    FILE *file = count == 2 ? fopen(words[1], "rb") : NULL;
    if (file == NULL) {
        fprintf(stderr, "usage: journal PROGRAM\n");
        return EXIT_FAILURE;
    }
    size_t length = fread(program, 1, sizeof program, file);
    fclose(file);

    corefun_answer answer;
    corefun_open(program, length, three, sizeof three, workspace, sizeof workspace, journal, sizeof journal, &answer);
    print_answer(&answer, 1);
    corefun_convert(program, length, PLUS, two, sizeof two, FUEL, workspace, sizeof workspace, journal, sizeof journal, &answer);
    print_answer(&answer, 0);
    read_journal();
    corefun_rollback(program, length, FUEL, workspace, sizeof workspace, journal, sizeof journal, &answer);
    print_answer(&answer, 0);
    read_journal();
    corefun_rollback(program, length, FUEL, workspace, sizeof workspace, journal, sizeof journal, &answer);
    print_answer(&answer, 0);

    corefun_replay_answer replayed;
    corefun_replay(program, length, script, sizeof script, workspace, sizeof workspace, journal, sizeof journal,
                   answers, sizeof answers, &replayed);
    if (replayed.ending != COREFUN_PLAYED) return EXIT_FAILURE;
    printf("played %llu ", (unsigned long long)replayed.at);
    print_bytes(answers, sizeof answers, "\n");
    return EXIT_SUCCESS;
}
