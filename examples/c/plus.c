/* plus and dup of examples/programs/plus.txt, called from C. The program's bytes come from a file:
 *
 *     examples/bytes.sh examples/programs/plus.txt > plus.cf
 *     cc -I include examples/c/plus.c target/staticlib/libexports.a -o plus
 *     ./plus plus.cf
 *
 * It prints an answer a line: ok, value VALUE STEPS, or refused NUMBER PLACE.
 */
#include <corefun.h>

#include <stdio.h>
#include <stdlib.h>

enum { PLUS = 0, DUP = 1, MOST_PROGRAM_BYTES = 32768 };

/* Nat n is n times 04 02, then 04 01 00. */
static const uint8_t two[] = {4, 2, 4, 2, 4, 1, 0};
static const uint8_t three[] = {4, 2, 4, 2, 4, 2, 4, 1, 0};
static const uint8_t five[] = {4, 2, 4, 2, 4, 2, 4, 2, 4, 2, 4, 1, 0};
static const uint8_t three_and_four[] = {3, 4, 2, 4, 2, 4, 2, 4, 1, 0, 4, 2, 4, 2, 4, 2, 4, 2, 4, 1, 0};

static uint8_t program[MOST_PROGRAM_BYTES + 1];
static uint8_t workspace[COREFUN_WORKSPACE(UINT16_MAX)];
static uint8_t output[COREFUN_VALUE_BYTES];

static void print_answer(const corefun_answer *answer, int is_check) {
    if (answer->number != 0) {
        printf("refused %llu %llu\n", (unsigned long long)answer->number, (unsigned long long)answer->place);
    } else if (is_check) {
        printf("ok\n");
    } else {
        printf("value ");
        for (uint64_t i = 0; i < answer->length; i++) printf("%02x", (unsigned)output[i]);
        printf(" %llu\n", (unsigned long long)answer->steps);
    }
}

int main(int count, char **words) {
    FILE *file = count == 2 ? fopen(words[1], "rb") : NULL;
    if (file == NULL) {
        fprintf(stderr, "usage: plus PROGRAM\n");
        return EXIT_FAILURE;
    }
    size_t length = fread(program, 1, sizeof program, file);
    fclose(file);

    corefun_answer answer;
    corefun_check(program, length, workspace, sizeof workspace, &answer);
    print_answer(&answer, 1);

    corefun_forward(program, length, PLUS, two, sizeof two, three, sizeof three, 28,
                    workspace, sizeof workspace, output, sizeof output, &answer);
    print_answer(&answer, 0);

    corefun_forward(program, length, PLUS, two, sizeof two, three, sizeof three, 27,
                    workspace, sizeof workspace, output, sizeof output, &answer);
    print_answer(&answer, 0);

    corefun_backward(program, length, PLUS, two, sizeof two, five, sizeof five, 28,
                     workspace, sizeof workspace, output, sizeof output, &answer);
    print_answer(&answer, 0);

    /* dup has no ancillae: any pointer will do for no bytes. */
    corefun_backward(program, length, DUP, two, 0, three_and_four, sizeof three_and_four, 28,
                     workspace, sizeof workspace, output, sizeof output, &answer);
    print_answer(&answer, 0);
    return EXIT_SUCCESS;
}
