/*
 * A host program for the test selector, by the calls that run a whole job.
 *
 *     host sheet OLD NEW TESTS          prints the sheet, then all record lines
 *     host check OLD NEW TESTS SHEET    says whether the sheet passes
 *     host program OLD NEW TESTS SIDE   prints the program of a side, 0 old or
 *                                       1 new, as it is written back
 *     host probes OLD NEW TESTS         prints a line Q,EDGE for each new edge
 *                                       that needs a probe
 *
 * A refusal is printed in words. Exit status: 0 done or passed, 1 refused,
 * 2 a wrong argument, a file that cannot be read, or an output that cannot be
 * written.
 *
 * Build: cc -std=c99 -Wall -Wextra -I../../include host.c -L DIR -lrivetyellow
 */
#include "shared.h"

#include <string.h>

/* Which text a refusal of reading is about: the first that is refused. */
static int text_refused(const struct text *t)
{
    if (ry_number(ry_read_old(t[OLD].bytes, t[OLD].length)) != RY_DONE)
        return OLD;
    if (ry_number(ry_read_new(t[OLD].bytes, t[OLD].length, t[NEW].bytes, t[NEW].length)) != RY_DONE)
        return NEW;
    if (ry_number(ry_read_tests(t[OLD].bytes, t[OLD].length, t[NEW].bytes, t[NEW].length,
                                t[TESTS].bytes, t[TESTS].length)) != RY_DONE)
        return TESTS;
    return SHEET;
}

static int refused_by(const struct text *texts, uint64_t answer)
{
    return refused(text_name[text_refused(texts)], answer);
}

/* Ends a run whose output could not be written. */
static int unwritten(void)
{
    fprintf(stderr, "host: the output cannot be written\n");
    return 2;
}

static int print_sheet(const struct text *t)
{
    static uint8_t out[RY_SHEET_ROOM];
    size_t test;
    uint64_t answer = ry_sheet(t[OLD].bytes, t[OLD].length, t[NEW].bytes, t[NEW].length,
                               t[TESTS].bytes, t[TESTS].length, out, sizeof out);

    if (ry_number(answer) != RY_DONE)
        return refused_by(t, answer);
    if (fwrite(out, 1, ry_place(answer), stdout) != ry_place(answer))
        return 2;
    for (test = 0;; test++) {
        answer = ry_record(t[OLD].bytes, t[OLD].length, t[NEW].bytes, t[NEW].length,
                           t[TESTS].bytes, t[TESTS].length, test, out, RY_RECORD_ROOM);
        /* The texts were accepted, so 6 says that the last test was written. */
        if (ry_number(answer) == RY_NOT_NAMED)
            return 0;
        if (ry_number(answer) != RY_DONE)
            return refused_by(t, answer);
        if (fwrite(out, 1, ry_place(answer), stdout) != ry_place(answer))
            return 2;
    }
}

static int check_sheet(const struct text *t)
{
    uint64_t answer = ry_check(t[OLD].bytes, t[OLD].length, t[NEW].bytes, t[NEW].length,
                               t[TESTS].bytes, t[TESTS].length, t[SHEET].bytes, t[SHEET].length);

    if (ry_number(answer) != RY_DONE)
        return refused_by(t, answer);
    printf("the sheet passes\n");
    return 0;
}

static int print_program(const struct text *t, size_t side)
{
    static uint8_t out[RY_PROGRAM_ROOM];
    uint64_t answer = ry_program(t[OLD].bytes, t[OLD].length, t[NEW].bytes, t[NEW].length,
                                 t[TESTS].bytes, t[TESTS].length, side, out, sizeof out);

    /* In a text 6 has a line for its place. */
    if (ry_number(answer) == RY_NOT_NAMED && ry_place(answer) == 0)
        return refused("the side", answer);
    if (ry_number(answer) != RY_DONE)
        return refused_by(t, answer);
    if (fwrite(out, 1, ry_place(answer), stdout) != ry_place(answer))
        return 2;
    return 0;
}

static int print_probes(const struct text *t)
{
    static uint8_t out[RY_PROBES_ROOM];
    uint64_t answer = ry_probes(t[OLD].bytes, t[OLD].length, t[NEW].bytes, t[NEW].length,
                                t[TESTS].bytes, t[TESTS].length, out, sizeof out);

    if (ry_number(answer) != RY_DONE)
        return refused_by(t, answer);
    if (fwrite(out, 1, ry_place(answer), stdout) != ry_place(answer))
        return 2;
    return 0;
}

int main(int argc, char **argv)
{
    struct text texts[TEXTS] = { { NULL, 0 } };
    int sheet = argc == 2 + SHEET && strcmp(argv[1], "sheet") == 0;
    int check = argc == 2 + TEXTS && strcmp(argv[1], "check") == 0;
    size_t side = 0;
    int program = argc == 3 + SHEET && strcmp(argv[1], "program") == 0
        && read_number(argv[2 + SHEET], &side);
    int probes = argc == 2 + SHEET && strcmp(argv[1], "probes") == 0;
    int files = check ? TEXTS : SHEET;
    int status = 2;
    int at;

    if (!sheet && !check && !program && !probes) {
        fprintf(stderr, "usage: host sheet OLD NEW TESTS\n"
                        "       host check OLD NEW TESTS SHEET\n"
                        "       host program OLD NEW TESTS SIDE\n"
                        "       host probes OLD NEW TESTS\n");
        return 2;
    }
    for (at = 0; at < files; at++)
        if (!read_file(argv[2 + at], &texts[at]))
            break;
    if (at == files)
        status = sheet ? print_sheet(texts)
            : check ? check_sheet(texts)
            : program ? print_program(texts, side) : print_probes(texts);
    for (at = 0; at < TEXTS; at++)
        free(texts[at].bytes);
    if (fflush(stdout) != 0 || ferror(stdout))
        return unwritten();
    return status;
}
