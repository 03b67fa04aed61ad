/* Prints what a C compiler makes of transput.h: the size and alignment of each struct, the offset and size of each field, the value
 * of each constant, and some answer words. */
#include <stdio.h>

#include "transput.h"

#define STRUCT(name) printf(#name " size %zu alignment %zu\n", sizeof(name), _Alignof(name))
#define FIELD(name, field) \
    printf(#name "." #field " offset %zu size %zu\n", offsetof(name, field), sizeof(((name *)0)->field))
#define CONSTANT(name) printf(#name " %d\n", (int)name)

static void positions_and_shapes(void) {
    STRUCT(transput_position);
    FIELD(transput_position, page);
    FIELD(transput_position, line);
    FIELD(transput_position, character);
    STRUCT(transput_shape);
    FIELD(transput_shape, pages);
    FIELD(transput_shape, lines);
    FIELD(transput_shape, characters);
}

static void records(void) {
    STRUCT(transput_rights);
    FIELD(transput_rights, get);
    FIELD(transput_rights, put);
    FIELD(transput_rights, set);
    FIELD(transput_rights, reset);
    FIELD(transput_rights, compress);
    STRUCT(transput_file);
    FIELD(transput_file, position);
    FIELD(transput_file, shape);
    FIELD(transput_file, opened);
    FIELD(transput_file, reading);
    FIELD(transput_file, writing);
    FIELD(transput_file, split);
    FIELD(transput_file, rights);
}

static void results(void) {
    STRUCT(transput_result);
    FIELD(transput_result, number);
    FIELD(transput_result, stop);
    FIELD(transput_result, given);
    FIELD(transput_result, event);
    FIELD(transput_result, value);
    FIELD(transput_result, events);
    FIELD(transput_result, taken);
    FIELD(transput_result, count);
    FIELD(transput_result, end);
    FIELD(transput_result, signalled);
    STRUCT(transput_view);
    FIELD(transput_view, number);
    FIELD(transput_view, marker);
    FIELD(transput_view, from);
    FIELD(transput_view, count);
    STRUCT(transput_wrote);
    FIELD(transput_wrote, number);
    FIELD(transput_wrote, count);
}

static void comparisons(void) {
    STRUCT(transput_span);
    FIELD(transput_span, page);
    FIELD(transput_span, line);
    FIELD(transput_span, first);
    FIELD(transput_span, last);
    STRUCT(transput_differences);
    FIELD(transput_differences, number);
    FIELD(transput_differences, count);
}

static void numbers(void) {
    CONSTANT(TRANSPUT_DONE);
    CONSTANT(TRANSPUT_NOT_OPEN);
    CONSTANT(TRANSPUT_BAD_ANSWERS);
    CONSTANT(TRANSPUT_BAD_BOOK);
    CONSTANT(TRANSPUT_NO_RIGHT);
    CONSTANT(TRANSPUT_NO_MOOD);
    CONSTANT(TRANSPUT_OUT_OF_RANGE);
    CONSTANT(TRANSPUT_BAD_CHARACTER);
    CONSTANT(TRANSPUT_BAD_VALUE);
    CONSTANT(TRANSPUT_LINE_TOO_SHORT);
    CONSTANT(TRANSPUT_JUMPED);
    CONSTANT(TRANSPUT_OUTPUT_TOO_SHORT);
    CONSTANT(TRANSPUT_LOGICAL_END_UNMENDED);
    CONSTANT(TRANSPUT_PHYSICAL_END_UNMENDED);
    CONSTANT(TRANSPUT_STRING_DOES_NOT_FIT);
    CONSTANT(TRANSPUT_EVENT_NONE);
    CONSTANT(TRANSPUT_EVENT_LOGICAL_END);
    CONSTANT(TRANSPUT_EVENT_PHYSICAL_END);
    CONSTANT(TRANSPUT_EVENT_PAGE_END);
    CONSTANT(TRANSPUT_EVENT_LINE_END);
    CONSTANT(TRANSPUT_EVENT_CHARACTER);
    CONSTANT(TRANSPUT_EVENT_VALUE);
}

static void stops_and_given(void) {
    CONSTANT(TRANSPUT_NO_STOP);
    CONSTANT(TRANSPUT_TERMINATOR);
    CONSTANT(TRANSPUT_LINE_ENDED);
    CONSTANT(TRANSPUT_FILE_ENDED);
    CONSTANT(TRANSPUT_OUTPUT_FULL);
    CONSTANT(TRANSPUT_NOTHING);
    CONSTANT(TRANSPUT_CHARACTER);
    CONSTANT(TRANSPUT_INTEGER);
}

static void kinds(void) {
    CONSTANT(TRANSPUT_FALSE);
    CONSTANT(TRANSPUT_TRUE);
    CONSTANT(TRANSPUT_TRUE_NEWLINE);
    CONSTANT(TRANSPUT_TRUE_NEWPAGE);
    CONSTANT(TRANSPUT_TRUE_SET);
    CONSTANT(TRANSPUT_TRUE_BACKSPACE);
    CONSTANT(TRANSPUT_TRUE_RESET);
    CONSTANT(TRANSPUT_TRUE_SUGGEST);
    CONSTANT(TRANSPUT_JUMP);
    CONSTANT(TRANSPUT_MOST_PAGES);
    CONSTANT(TRANSPUT_MOST_LINES);
    CONSTANT(TRANSPUT_MOST_CHARACTERS);
    CONSTANT(TRANSPUT_MOST_LINES_IN_ALL);
    CONSTANT(TRANSPUT_MOST_CHARACTERS_IN_ALL);
    CONSTANT(TRANSPUT_MOST_ANSWERS);
    CONSTANT(TRANSPUT_INTEGER_WIDTH);
}

/* One word of each kind, and places at and past the limits of their fields. */
static void words(void) {
    static const uint32_t places[][3] = {{1, 2, 3}, {511, 511, 1023}, {512, 513, 1025}, {0, 0, 0}, {256, 1, 1}};
    for (size_t i = 0; i < sizeof places / sizeof places[0]; i++) {
        printf("word %08x\n", (unsigned)transput_answer(TRANSPUT_TRUE_SET, places[i][0], places[i][1], places[i][2]));
    }
    for (uint32_t byte = 0; byte < 256; byte++) {
        printf("word %08x\n", (unsigned)transput_answer(TRANSPUT_TRUE_SUGGEST, 0, 0, byte));
    }
    for (uint32_t kind = 0; kind <= 8; kind++) {
        printf("word %08x\n", (unsigned)transput_answer(kind, 0, 0, 0));
    }
}

int main(void) {
    positions_and_shapes();
    records();
    results();
    comparisons();
    numbers();
    stops_and_given();
    kinds();
    words();
    return 0;
}
