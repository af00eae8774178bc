/*
 * Rivetyellow: a regression-test selector and the checker of its sheets.
 *
 * Given an old and a new version of a program and a file of tests with their
 * coverage of the old version, the selector writes a sheet: which nodes of the
 * two versions are paired, which old edges are dangerous, which tests must be
 * repeated. The checker judges any sheet against the same three texts. For the
 * tests to repeat, the new edges that need a probe are listed. A program that
 * was read can be written back from its tables.
 *
 * There are two sorts of calls, for the same work and with the same answers:
 *   - Eight calls run one whole job each. They are lent texts and an output.
 *   - The calls ry_job_.. work on a lent job: a record and tables that the
 *     caller keeps from call to call. The texts are read into them once, and
 *     then several requests are made.
 *
 * A call returns one number (ry_job_reset and ry_job_label excepted):
 *
 *     number * 4294967296 + place
 *
 * Take it apart with ry_number and ry_place. On success the number is 0 and
 * the place is the count of bytes written, 0 for a call that writes nothing.
 * Otherwise the number says why the call is refused and the place says where.
 *
 * Branches
 *   At a step a run takes the edge with the chosen word, or else the edge `*`.
 *   The versions are compared so for every word: an old `*` with the new one,
 *   and with each branch that only the new node names; an old branch whose word
 *   the new node does not name, with its `*`. An entry or a call has no `*`.
 *
 * Texts and outputs
 *   A text or an output is a pointer and a length in bytes. Texts are not
 *   ended by a zero byte, and any byte may stand in them. Of an empty one the
 *   length is 0 and the pointer any that is not null. No alignment is needed.
 *
 * Ownership and memory
 *   All memory stays the caller's. Texts are only read; an output is only
 *   written. What a call may write must not overlap anything else that it is
 *   lent. Nothing is kept between calls but in what is lent: no pointer, no
 *   state, no allocated memory. So calls may run at the same time on several
 *   threads, each with an output, a job, tables and scratch of its own.
 *
 *   On success the first `place` bytes of the output are written and the bytes
 *   after them stay as they were. A refused call changes no byte of it, also
 *   where the output is too short.
 *
 * Stack
 *   A call that runs a whole job has its tables on its stack while it runs, a
 *   call of the lent job some work tables. They have fixed lengths, so the need
 *   does not grow with the texts. Measured on x86-64 it is at most 305,592
 *   bytes (298 KiB). Give the calling thread a stack of 512 KiB
 *   (RY_STACK_ROOM): the rest is margin, also for the caller's own frames. No
 *   call tests how much is left; without the room the process faults.
 *
 * Order
 *   A call of the lent job tests RY_WRONG_STAGE, then RY_LENT_MEMORY_WRONG.
 *   A call reads its texts to their ends in the order old, new, tests, sheet;
 *   the first refusal is the answer. Then, as far as the call gives them,
 *   RY_NOT_NAMED for the call's own numbers, RY_CLAIM_FALSE,
 *   RY_TOO_MANY_PAIRS, RY_OUTPUT_SHORT.
 *   A text is judged line by line, so its first offending line is named.
 */
#ifndef RIVETYELLOW_H
#define RIVETYELLOW_H

#include <stddef.h>
#include <stdint.h>

#ifdef __cplusplus
extern "C" {
#endif

/*
 * The numbers. A line's place counts from 1 in the text it stands in.
 */
enum {
    /* Done. Place: the bytes written, or 0. */
    RY_DONE = 0,
    /* A text has more than 65,536 bytes. Place: 0. */
    RY_TEXT_TOO_LONG = 1,
    /* A line has no form of its file, or lacks its byte 10; an empty program
       text is line 1. Place: the line. */
    RY_LINE_MALFORMED = 2,
    /* An N or B line before the first P, or an N line after a B line of its
       procedure. Place: the line. */
    RY_LINE_OUT_OF_PLACE = 3,
    /* A P, N, B, T or M line above the number allowed. Place: the line. */
    RY_TOO_MANY_LINES = 4,
    /* Two procedures or two tests of one name. Place: the second's line. */
    RY_NAME_TWICE = 5,
    /* A number names no node of its procedure. Place: the line. Of a call's own
       number: there is no such test, side, node or request. Place: 0. */
    RY_NOT_NAMED = 6,
    /* Two edges of one node have the same word. Place: the second's line. */
    RY_WORD_TWICE = 7,
    /* A procedure has not one entry and one exit, or a node has too few or too
       many edges, or the edge of an entry or call has another word than `-`.
       Place: the procedure's P line. */
    RY_PROCEDURE_BROKEN = 8,
    /* A call names a procedure that is not there, alone or among others.
       Place: the first such N line. */
    RY_UNKNOWN_CALLEE = 9,
    /* Length, digit or spare bit of a coverage row is wrong. Place: the line. */
    RY_ROW_WRONG = 10,
    /* Order, count, number or test name in a sheet is wrong, or a line is
       missing, which counts as one past the last. Place: the line. */
    RY_SHEET_WRONG = 11,
    /* The sheet's layout is right but a claim of it is false. Place: the first
       broken rule, 1 to 5:
         1 the entries of the two first procedures are listed;
         2 listed pairs are alike: equal kinds, equal callee fields, and labels
           that are equal after dropping blanks (byte 32) at both ends and
           taking each inner run of them as one;
         3 for a listed pair of calls the first callee's entries are listed, and
           each later one's, if the exits of every callee before it are;
         4 at a listed pair that may go on (a call only if the exits of all its
           callees are listed), for every word, the edge that the old node
           takes, the one with the word or else `*`, is listed under D, or the
           new node takes one and the ends are listed;
         5 every test whose row holds a D edge is listed. */
    RY_CLAIM_FALSE = 12,
    /* The job is at another stage than the call is for. Place: 0. This and 14
       are given by the calls of the lent job only. */
    RY_WRONG_STAGE = 13,
    /* A lent table or the scratch is too short; or job and tables are not what
       reading the lent texts leaves: one of them was changed, or another text
       is lent than was read. Place: 0. RY_REQUEST_PROGRAM asks less of the
       texts of the programs, as said there. */
    RY_LENT_MEMORY_WRONG = 14,
    /* The two versions have more than 4,096 pairs. Place: 0. Given for a sheet,
       a record line or the probes only. */
    RY_TOO_MANY_PAIRS = 15,
    /* The output is shorter than what must be written. Place: 0. */
    RY_OUTPUT_SHORT = 16
};

/* The most bytes of a text that is accepted. Longer ones are refused. */
#define RY_TEXT_LIMIT 65536
/* An output of this length is enough for every sheet. */
#define RY_SHEET_ROOM 65536
/* An output of this length is enough for every record line. */
#define RY_RECORD_ROOM 1045
/* An output of this length is enough for every program written back. */
#define RY_PROGRAM_ROOM 65536
/* An output of this length is enough for every list of probes: 1,024 lines of at
   most 7 bytes. */
#define RY_PROBES_ROOM 7168
/* A stack of this many bytes is enough for every call, with a margin. */
#define RY_STACK_ROOM 524288

/*
 * The lent job.
 *
 * The lengths of what is lent, in elements. Shorter is refused; longer is
 * taken, and what lies beyond what a call writes stays.
 */
/* Nodes (struct ry_node) and links (size_t) of each version. */
#define RY_JOB_NODES 512
#define RY_JOB_LINKS 6080
/* Tests (size_t) and their rows (uint64_t). */
#define RY_JOB_TESTS 400
#define RY_JOB_ROWS 3200
/* Scratch (size_t) of a call that reads, and of one of stage 3. */
#define RY_JOB_READ_SCRATCH 8128
#define RY_JOB_SCRATCH 16912

/* The job: its stage, and what was counted when the texts were read. Make it a
   fresh one with ry_job_reset; only the calls change it after that. */
struct ry_job {
    size_t stage; /* 0 empty, 1 old read, 2 new read, 3 tests read */
    size_t old_procs, old_nodes, old_edges;
    size_t new_procs, new_nodes, new_edges;
    size_t tests;
};

/* A node: its kind (E 0, S 1, C 2, X 3), where its label stands in the text of
   its version and how long it is, and the procedures that a C calls, one to
   four, as digits to the base 256: 1 + the number of the first is the lowest
   (callees % 256), that of the second the next (callees / 256 % 256), and so
   on; a digit 0 says that there are no more. */
struct ry_node {
    size_t kind, start, len, callees;
};

/* What ry_job_call can be asked for, and what it uses of its arguments. */
enum {
    /* Write the sheet: out. Gives 0, 15, 16. */
    RY_REQUEST_SHEET = 0,
    /* Write the record line of the test a: out. Gives 0, 6, 15, 16. */
    RY_REQUEST_RECORD = 1,
    /* Check the sheet in input. Gives 0, 1, 2, 4, 11, 12. */
    RY_REQUEST_CHECK = 2,
    /* Can the label of a node be shown: a is the side, 0 old or 1 new, b the
       node. Gives 0, 6. Where it stands is told by ry_job_label. */
    RY_REQUEST_LABEL = 3,
    /* Write the program of the side a, 0 old or 1 new, back from its tables:
       out. Gives 0, 6, 16.
       From the lent text of a program only names, callees, labels and words are
       taken. So of the texts of both programs, whichever is asked for,
       RY_LENT_MEMORY_WRONG asks only this: there is a text as long as the lent
       one, with the same bytes wherever its names, callees, labels and words
       stand, that leaves these tables when it is read. There is at most one,
       and it is what is written; where the lent text is the one that was read,
       it is that. Commas, line ends, kinds and numbers of a lent program may
       thus be spoilt and are written right; a label with a comma in it, a name
       that is no longer what a call of it says, a word that is not in the
       tables, a name twice are refused. Of job, tables, scratch and the text of
       the tests it asks what it asks for every request. */
    RY_REQUEST_PROGRAM = 4,
    /* Write the lines of the new edges that need a probe: out. Gives 0, 15,
       16. */
    RY_REQUEST_PROBES = 5
};

/* The number of an answer. */
static inline uint32_t ry_number(uint64_t answer)
{
    return (uint32_t)(answer >> 32);
}

/* The place of an answer. */
static inline uint32_t ry_place(uint64_t answer)
{
    return (uint32_t)answer;
}

/* Reads the old program. Gives 0, 1 to 9. */
uint64_t ry_read_old(const uint8_t *old_text, size_t old_length);

/* Reads the old, then the new program. Gives 0, 1 to 9. */
uint64_t ry_read_new(const uint8_t *old_text, size_t old_length,
                     const uint8_t *new_text, size_t new_length);

/* Reads both programs, then the tests against the old one's edges. An empty
   test text holds no tests. Gives 0, 1 to 10. */
uint64_t ry_read_tests(const uint8_t *old_text, size_t old_length,
                       const uint8_t *new_text, size_t new_length,
                       const uint8_t *tests_text, size_t tests_length);

/* Writes the sheet into the output: pairs, dangerous edges, tests to repeat.
   Gives 0 with the bytes written, 1 to 10, 15, 16. */
uint64_t ry_sheet(const uint8_t *old_text, size_t old_length,
                  const uint8_t *new_text, size_t new_length,
                  const uint8_t *tests_text, size_t tests_length,
                  uint8_t *out, size_t out_length);

/* Writes the record line of one test, byte 10 included: its name, the number
   of edges it crossed, and a mark for each new edge: `1` the new run crosses
   it, `0` it never does, `?` not known. Of a test that need not be repeated
   these are true as far as its old run went; it keeps its `0` and `1` also at
   edges that need a probe. Of one to repeat `0` and `1` may be relied on if its
   old run ended; what it crosses behind a change is `?`. Both want a row that
   has just the edges crossed. Tests are numbered from 0 in file order.
   Gives 0 with the bytes written, 1 to 10, 15, 16; 6 with place 0 if there is
   no such test. */
uint64_t ry_record(const uint8_t *old_text, size_t old_length,
                   const uint8_t *new_text, size_t new_length,
                   const uint8_t *tests_text, size_t tests_length,
                   size_t test,
                   uint8_t *out, size_t out_length);

/* Checks a sheet, the selector's or another's. 0 is to pass: no test that the
   sheet leaves off need be repeated. Gives 0, 1 to 12 (3, 5 and 6 for the
   programs and tests only). */
uint64_t ry_check(const uint8_t *old_text, size_t old_length,
                  const uint8_t *new_text, size_t new_length,
                  const uint8_t *tests_text, size_t tests_length,
                  const uint8_t *sheet_text, size_t sheet_length);

/* Writes the program of one side back, 0 old or 1 new: for texts that are
   accepted, the bytes of that side's text.
   Gives 0 with the bytes written, 1 to 10, 16; 6 with place 0 if there is no
   such side. */
uint64_t ry_program(const uint8_t *old_text, size_t old_length,
                    const uint8_t *new_text, size_t new_length,
                    const uint8_t *tests_text, size_t tests_length,
                    size_t side,
                    uint8_t *out, size_t out_length);

/* Writes a line `Q,edge`, byte 10 included, for each new edge that needs a
   probe, ascending: those that a run may cross once the versions have parted.
   Each dangerous edge of the job counts, whether or not a test crossed it. If
   there are none nothing is written, and an output of no bytes will do.
   Gives 0 with the bytes written, 1 to 10, 15, 16. */
uint64_t ry_probes(const uint8_t *old_text, size_t old_length,
                   const uint8_t *new_text, size_t new_length,
                   const uint8_t *tests_text, size_t tests_length,
                   uint8_t *out, size_t out_length);

/*
 * The calls of the lent job, in the order of its stages. Each is lent the job
 * and, beside what it reads or writes itself, all texts that were read before
 * with their tables: they must be the same bytes (RY_REQUEST_PROGRAM takes
 * others too), and tables and job as the calls left them. What a table holds
 * before it is written is of no matter.
 *
 * A pointer is aligned as its type asks and never null; a length counts bytes,
 * a count elements. Job, written tables, scratch and output must not overlap
 * each other or anything else that is lent.
 *
 * The scratch may hold anything before and is zero over its whole length after
 * every call, whatever the answer. A refused call changes nothing else. One that
 * succeeds leaves what lies beyond what it writes as it was.
 *
 * Each that reads or serves gives 13 and 14 beside the numbers named for it.
 */

/* Makes the job a fresh one, of stage 0, whatever it held. Touches nothing
   else. The first call on a job; allowed at every stage. */
void ry_job_reset(struct ry_job *job);

/* Stage 0: reads the old program into nodes and links. Gives 0, 1 to 9. */
uint64_t ry_job_read_old(struct ry_job *job,
                         const uint8_t *old_text, size_t old_length,
                         struct ry_node *nodes, size_t nodes_count,
                         size_t *links, size_t links_count,
                         size_t *scratch, size_t scratch_count);

/* Stage 1: reads the new program into nodes and links, others than the old
   one's. Gives 0, 1 to 9. */
uint64_t ry_job_read_new(struct ry_job *job,
                         const uint8_t *old_text, size_t old_length,
                         const struct ry_node *old_nodes, size_t old_nodes_count,
                         const size_t *old_links, size_t old_links_count,
                         const uint8_t *new_text, size_t new_length,
                         struct ry_node *nodes, size_t nodes_count,
                         size_t *links, size_t links_count,
                         size_t *scratch, size_t scratch_count);

/* Stage 2: reads the tests against the old program's edges into tests and
   rows. Gives 0, 1, 2, 4, 5, 10. */
uint64_t ry_job_read_tests(struct ry_job *job,
                           const uint8_t *old_text, size_t old_length,
                           const struct ry_node *old_nodes, size_t old_nodes_count,
                           const size_t *old_links, size_t old_links_count,
                           const uint8_t *new_text, size_t new_length,
                           const struct ry_node *new_nodes, size_t new_nodes_count,
                           const size_t *new_links, size_t new_links_count,
                           const uint8_t *tests_text, size_t tests_length,
                           size_t *tests, size_t tests_count,
                           uint64_t *rows, size_t rows_count,
                           size_t *scratch, size_t scratch_count);

/* Stage 3: serves a request (RY_REQUEST_..), any number of times and in any
   order. What the request does not use is not looked at and not touched: pass
   0 for a number, and any text or output, as one of no bytes. The job stays at
   stage 3. Gives the request's numbers; 6 if there is no such request. */
uint64_t ry_job_call(struct ry_job *job,
                     const uint8_t *old_text, size_t old_length,
                     const struct ry_node *old_nodes, size_t old_nodes_count,
                     const size_t *old_links, size_t old_links_count,
                     const uint8_t *new_text, size_t new_length,
                     const struct ry_node *new_nodes, size_t new_nodes_count,
                     const size_t *new_links, size_t new_links_count,
                     const uint8_t *tests_text, size_t tests_length,
                     const size_t *tests, size_t tests_count,
                     const uint64_t *rows, size_t rows_count,
                     size_t request, size_t a, size_t b,
                     const uint8_t *input, size_t input_length,
                     size_t *scratch, size_t scratch_count,
                     uint8_t *out, size_t out_length);

/* Stage 3: where the label of a node stands in the text of its side, 0 old or
   1 new. Returns start * 4294967296 + length: ry_number takes the start out and
   ry_place the length. An entry's or exit's label has no bytes. Returns 0 when
   refused; the request RY_REQUEST_LABEL with the same numbers says why. */
uint64_t ry_job_label(struct ry_job *job,
                      const uint8_t *old_text, size_t old_length,
                      const struct ry_node *old_nodes, size_t old_nodes_count,
                      const size_t *old_links, size_t old_links_count,
                      const uint8_t *new_text, size_t new_length,
                      const struct ry_node *new_nodes, size_t new_nodes_count,
                      const size_t *new_links, size_t new_links_count,
                      const uint8_t *tests_text, size_t tests_length,
                      const size_t *tests, size_t tests_count,
                      const uint64_t *rows, size_t rows_count,
                      size_t side, size_t node,
                      size_t *scratch, size_t scratch_count);

#ifdef __cplusplus
}
#endif

#endif
