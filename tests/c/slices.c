/* The header's own part: NULL stands for no bytes, and, where assertions are made, buffers that overlap are caught. With a call's name for argument it
 * makes that call with an output that lies in its workspace or its journal, which ends the run where assertions are made. */
#include "corefun.h"

#include <stdio.h>
#include <string.h>

static uint8_t workspace[COREFUN_WORKSPACE(0)];

/* The held value 00, one conversion of function 1 in 2 steps without ancillae, and two zeros. */
static uint8_t journal[] = {0x21, 0, 1, 0, 0x22, 0, 6, 0, 1, 0, 0, 0, 2, 0, 0};

static void call_overlapping(const char *name)
{
    corefun_answer answer;
    corefun_nurse_answer seen;

    if (strcmp(name, "forward") == 0) {
        corefun_forward(NULL, 0, 0, NULL, 0, NULL, 0, 0, workspace, sizeof workspace, workspace + 1, 1, &answer);
    } else if (strcmp(name, "nurse") == 0) {
        corefun_nurse(journal, sizeof journal, journal + 1, 1, &seen);
    } else {
        corefun_workshop(journal, sizeof journal, journal + 1, 9, &answer);
    }
    printf("not caught\n");
}

/* Both readers into outputs just long enough, with a byte behind that stays as it was; then without bytes. */
static int readers_fill_their_outputs(void)
{
    static const uint8_t entry[] = {0x22, 0, 6, 0, 1, 0, 0, 0, 2};
    uint8_t output[sizeof entry + 1];
    corefun_answer answer;
    corefun_nurse_answer seen;

    memset(output, 0x55, sizeof output);
    corefun_nurse(journal, sizeof journal, output, 1, &seen);
    if (seen.number != COREFUN_ACCEPTED || seen.place != 0 || seen.length != 1 || seen.standing != 1) return 0;
    if (output[0] != 0 || output[1] != 0x55) return 0;
    corefun_workshop(journal, sizeof journal, output, sizeof entry, &answer);
    if (answer.number != COREFUN_ACCEPTED || answer.place != 0 || answer.length != sizeof entry || answer.steps != 0) return 0;
    if (memcmp(output, entry, sizeof entry) != 0 || output[sizeof entry] != 0x55) return 0;
    corefun_workshop(journal, 4, NULL, 0, &answer);
    return answer.number == COREFUN_ACCEPTED && answer.length == 0;
}

int main(int count, char **words)
{
    corefun_answer answer;
    corefun_nurse_answer seen;

    corefun_check(NULL, 0, workspace, sizeof workspace, &answer);
    printf("%s\n", corefun_meaning(answer.number));
    corefun_check(NULL, 0, NULL, 0, &answer);
    printf("%s\n", corefun_meaning(answer.number));
    corefun_forward(NULL, 0, 0, NULL, 0, NULL, 0, 0, workspace, sizeof workspace, NULL, 0, &answer);
    printf("%s\n", corefun_meaning(answer.number));
    corefun_open(NULL, 0, NULL, 0, workspace, sizeof workspace, NULL, 0, &answer);
    printf("%s\n", corefun_meaning(answer.number));
    corefun_rollback(NULL, 0, 0, workspace, sizeof workspace, NULL, 0, &answer);
    printf("%s\n", corefun_meaning(answer.number));
    if (answer.number != COREFUN_REFUSED_JOURNAL || strcmp(corefun_meaning(21), "no refusal has this number") != 0
        || COREFUN_ENTRIES_BYTES != 66112) {
        return 1;
    }
    corefun_nurse(journal, sizeof journal, NULL, 0, &seen);
    printf("%s\n", corefun_meaning(seen.number));
    corefun_workshop(NULL, 0, NULL, 0, &answer);
    printf("%s\n", corefun_meaning(answer.number));
    if (!readers_fill_their_outputs()) return 1;
    if (count > 1) call_overlapping(words[1]);
    return 0;
}
