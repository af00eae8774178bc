/*
 * What the host programs share: texts read from files, numbers, refusals in
 * words.
 */
#ifndef SHARED_H
#define SHARED_H

#include "rivetyellow.h"

#include <stdio.h>
#include <stdlib.h>

struct text {
    uint8_t *bytes;
    size_t length;
};

/* The texts of a job: old, new, tests and, to check, the sheet. */
enum { OLD, NEW, TESTS, SHEET, TEXTS };

static const char *const text_name[TEXTS] = {
    "the old program", "the new program", "the test file", "the sheet"
};

/* Reads a whole file, however long: the library judges its length. The bytes
   are never null, so an empty file is lent as the calls ask. */
static inline int read_file(const char *path, struct text *text)
{
    size_t room = RY_TEXT_LIMIT + 1;
    size_t got;
    FILE *file = fopen(path, "rb");

    text->length = 0;
    text->bytes = malloc(room);
    if (file == NULL || text->bytes == NULL) {
        perror(path);
        if (file != NULL)
            fclose(file);
        return 0;
    }
    while ((got = fread(text->bytes + text->length, 1, room - text->length, file)) > 0) {
        text->length += got;
        if (text->length == room) {
            uint8_t *longer = room > SIZE_MAX / 2 ? NULL : realloc(text->bytes, 2 * room);
            if (longer == NULL) {
                fprintf(stderr, "%s: not enough memory\n", path);
                fclose(file);
                return 0;
            }
            text->bytes = longer;
            room *= 2;
        }
    }
    if (ferror(file)) {
        perror(path);
        fclose(file);
        return 0;
    }
    fclose(file);
    return 1;
}

/* A number of decimal digits. */
static inline int read_number(const char *digits, size_t *number)
{
    *number = 0;
    if (*digits == '\0')
        return 0;
    for (; *digits != '\0'; digits++) {
        size_t digit = (size_t)(*digits - '0');
        if (digit > 9 || *number > (SIZE_MAX - digit) / 10)
            return 0;
        *number = 10 * *number + digit;
    }
    return 1;
}

/* What a refusal means. */
static inline const char *in_words(uint32_t number)
{
    switch (number) {
    case RY_TEXT_TOO_LONG:
        return "the text has more than 65,536 bytes";
    case RY_LINE_MALFORMED:
        return "the line is malformed, or the text is empty or its last line has no end";
    case RY_LINE_OUT_OF_PLACE:
        return "the line is out of place";
    case RY_TOO_MANY_LINES:
        return "there are more lines of this kind than allowed";
    case RY_NAME_TWICE:
        return "the name is there twice";
    case RY_NOT_NAMED:
        return "a number names nothing that is there";
    case RY_WORD_TWICE:
        return "the node has this word twice";
    case RY_PROCEDURE_BROKEN:
        return "the procedure has not one entry and one exit, or a node has too few or "
               "too many edges, or the edge of an entry or call has not the word -";
    case RY_UNKNOWN_CALLEE:
        return "the call names a procedure that is not there";
    case RY_ROW_WRONG:
        return "the coverage row has a wrong length, digit or spare bit";
    case RY_SHEET_WRONG:
        return "order, count, number or test name is wrong, or the line is missing";
    case RY_CLAIM_FALSE:
        return "the sheet claims what does not hold";
    case RY_WRONG_STAGE:
        return "the call is not of this stage";
    case RY_LENT_MEMORY_WRONG:
        return "the lent memory is too short or not what reading left";
    case RY_TOO_MANY_PAIRS:
        return "the versions have more than 4,096 pairs";
    case RY_OUTPUT_SHORT:
        return "the output is too short";
    default:
        return "the number is not known";
    }
}

/* The rules of the check. */
static inline const char *claim_in_words(uint32_t rule)
{
    switch (rule) {
    case 1:
        return "the entries of the first procedures are not listed";
    case 2:
        return "a listed pair is not alike";
    case 3:
        return "a listed pair of calls lacks the entries of a procedure that comes to be called";
    case 4:
        return "for some word an old edge is neither listed as dangerous nor led to a listed pair";
    case 5:
        return "a test that crosses a listed dangerous edge is not listed";
    default:
        return "the rule is not known";
    }
}

/* Prints why a call is refused, and which text or request it is about. */
static inline int refused(const char *what, uint64_t answer)
{
    uint32_t number = ry_number(answer);
    uint32_t place = ry_place(answer);

    printf("refused (%lu): ", (unsigned long)number);
    if (number == RY_CLAIM_FALSE)
        printf("%s, rule %lu: %s\n", what, (unsigned long)place, claim_in_words(place));
    else if (number > RY_CLAIM_FALSE)
        printf("%s\n", in_words(number));
    else if (place == 0)
        printf("%s: %s\n", what, in_words(number));
    else
        printf("%s, line %lu: %s\n", what, (unsigned long)place, in_words(number));
    return 1;
}

#endif
