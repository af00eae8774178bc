/*
 * The lent job: the texts are read once into memory that this program keeps,
 * and then several requests are made over it.
 *
 *     lent OLD NEW TESTS SIDE NODE
 *
 * prints the sheet, then all record lines, then whether the sheet passes its
 * check, then the label of a node, by side (0 old, 1 new) and number, then how
 * many bytes the program of that side has, written back, then a line Q,EDGE for
 * each new edge that needs a probe.
 *
 * A refusal is printed in words. Exit status: 0 done, 1 refused, 2 a wrong
 * argument, a file that cannot be read, or an output that cannot be written.
 *
 * Build: cc -std=c99 -Wall -Wextra -I../../include lent.c -L DIR -lrivetyellow
 */
#include "shared.h"

#include <string.h>

/* What is lent. It need not be cleared before. */
static struct ry_job job;
static struct ry_node nodes[2][RY_JOB_NODES];
static size_t links[2][RY_JOB_LINKS];
static size_t tests[RY_JOB_TESTS];
static uint64_t rows[RY_JOB_ROWS];
static size_t scratch[RY_JOB_SCRATCH];
static uint8_t sheet[RY_SHEET_ROOM];
static uint8_t line[RY_RECORD_ROOM];
static uint8_t program[RY_PROGRAM_ROOM];
static uint8_t probes[RY_PROBES_ROOM];

/* A version that was read, and all that was read, as arguments. */
#define VERSION(t, v) (t)[v].bytes, (t)[v].length, nodes[v], RY_JOB_NODES, links[v], RY_JOB_LINKS
#define ALL_READ(t) \
    VERSION(t, OLD), VERSION(t, NEW), (t)[TESTS].bytes, (t)[TESTS].length, \
    tests, RY_JOB_TESTS, rows, RY_JOB_ROWS

/* Reads the three texts, one stage after another. */
static int read_texts(const struct text *t)
{
    uint64_t answer;

    ry_job_reset(&job);
    answer = ry_job_read_old(&job, VERSION(t, OLD), scratch, RY_JOB_SCRATCH);
    if (ry_number(answer) != RY_DONE)
        return refused(text_name[OLD], answer);
    answer = ry_job_read_new(&job, VERSION(t, OLD), VERSION(t, NEW), scratch, RY_JOB_SCRATCH);
    if (ry_number(answer) != RY_DONE)
        return refused(text_name[NEW], answer);
    answer = ry_job_read_tests(&job, ALL_READ(t), scratch, RY_JOB_SCRATCH);
    if (ry_number(answer) != RY_DONE)
        return refused(text_name[TESTS], answer);
    return 0;
}

/* A request that comes with no text: an input of no bytes. */
static uint64_t ask(const struct text *t, size_t request, size_t a, size_t b,
                    uint8_t *out, size_t out_length)
{
    return ry_job_call(&job, ALL_READ(t), request, a, b, t[OLD].bytes, 0,
                       scratch, RY_JOB_SCRATCH, out, out_length);
}

/* Prints the sheet and the record lines, and checks the sheet. */
static int print_sheet(const struct text *t)
{
    size_t length, test;
    uint64_t answer = ask(t, RY_REQUEST_SHEET, 0, 0, sheet, sizeof sheet);

    if (ry_number(answer) != RY_DONE)
        return refused("the sheet", answer);
    length = ry_place(answer);
    if (fwrite(sheet, 1, length, stdout) != length)
        return 2;
    for (test = 0; test < job.tests; test++) {
        answer = ask(t, RY_REQUEST_RECORD, test, 0, line, sizeof line);
        if (ry_number(answer) != RY_DONE)
            return refused("the record line", answer);
        if (fwrite(line, 1, ry_place(answer), stdout) != ry_place(answer))
            return 2;
    }
    answer = ry_job_call(&job, ALL_READ(t), RY_REQUEST_CHECK, 0, 0, sheet, length,
                         scratch, RY_JOB_SCRATCH, line, 0);
    if (ry_number(answer) != RY_DONE)
        return refused(text_name[SHEET], answer);
    printf("the sheet passes\n");
    return 0;
}

/* Prints a label: a part of the text of its side. */
static int print_label(const struct text *t, size_t side, size_t node)
{
    uint64_t answer = ask(t, RY_REQUEST_LABEL, side, node, line, 0);
    uint64_t part;

    if (ry_number(answer) != RY_DONE)
        return refused("the label", answer);
    part = ry_job_label(&job, ALL_READ(t), side, node, scratch, RY_JOB_SCRATCH);
    printf("label: %.*s\n", (int)ry_place(part),
           (const char *)t[side == 0 ? OLD : NEW].bytes + ry_number(part));
    return 0;
}

/* Writes the program of a side into the output, and compares it with the text
   that was read. */
static int same_program(const struct text *t, size_t side, const struct text *read)
{
    uint64_t answer = ask(t, RY_REQUEST_PROGRAM, side, 0, program, sizeof program);

    if (ry_number(answer) != RY_DONE)
        return refused("the program", answer);
    if (ry_place(answer) == read->length && memcmp(program, read->bytes, read->length) == 0)
        return 0;
    printf("the program is not the text that was read\n");
    return 1;
}

/* Writes the program of a side back. Of the lent text only names, callees,
   labels and words are taken: a copy whose first comma is spoilt will do. */
static int write_back(const struct text *t, size_t side)
{
    struct text lent[SHEET];
    const struct text *read = &t[side == 0 ? OLD : NEW];
    struct text *copy = &lent[side == 0 ? OLD : NEW];
    int status = same_program(t, side, read);

    if (status != 0)
        return status;
    memcpy(lent, t, sizeof lent);
    copy->bytes = malloc(read->length);
    if (copy->bytes == NULL) {
        perror("lent");
        return 2;
    }
    memcpy(copy->bytes, read->bytes, read->length);
    *(uint8_t *)memchr(copy->bytes, ',', read->length) = '?';
    status = same_program(lent, side, read);
    free(copy->bytes);
    if (status == 0)
        printf("written back: %lu bytes, also with a comma spoilt\n",
               (unsigned long)read->length);
    return status;
}

/* Prints the new edges that need a probe. */
static int print_probes(const struct text *t)
{
    uint64_t answer = ask(t, RY_REQUEST_PROBES, 0, 0, probes, sizeof probes);

    if (ry_number(answer) != RY_DONE)
        return refused("the probes", answer);
    if (fwrite(probes, 1, ry_place(answer), stdout) != ry_place(answer))
        return 2;
    return 0;
}

int main(int argc, char **argv)
{
    struct text texts[SHEET] = { { NULL, 0 } };
    size_t side, node;
    int status = 2;
    int at;

    if (argc != 6 || !read_number(argv[4], &side) || !read_number(argv[5], &node)) {
        fprintf(stderr, "usage: lent OLD NEW TESTS SIDE NODE\n");
        return 2;
    }
    for (at = 0; at < SHEET; at++)
        if (!read_file(argv[1 + at], &texts[at]))
            break;
    if (at == SHEET) {
        status = read_texts(texts);
        if (status == 0)
            status = print_sheet(texts);
        if (status == 0)
            status = print_label(texts, side, node);
        if (status == 0)
            status = write_back(texts, side);
        if (status == 0)
            status = print_probes(texts);
    }
    for (at = 0; at < SHEET; at++)
        free(texts[at].bytes);
    if (fflush(stdout) != 0 || ferror(stdout)) {
        fprintf(stderr, "lent: the output cannot be written\n");
        return 2;
    }
    return status;
}
