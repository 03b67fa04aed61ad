/* The character transput of ALGOL 68, proved: the C interface of the library libtransput.a.
 *
 * A book is three lent arrays and a position. The caller owns all memory; the library keeps no pointer after a call returns,
 * has no state of its own, allocates nothing and calls nothing back. Every call returns, whatever the record, the lengths, the
 * texts and the answers hold: what is bad is refused with a number.
 *
 * What the caller promises, for every call:
 *  - a pointer to a record points to a whole transput_file, and each of its flags is a bool that C wrote (0 or 1);
 *  - a pointer and the length after it name so many elements that may be read, and where the pointer is not const, written, until
 *    the call returns; a length of 0 goes with any pointer, null too;
 *  - what may be written overlaps nothing else that is passed to the same call, the records included;
 *  - no other thread touches what is passed while the call runs.
 */
#ifndef TRANSPUT_H
#define TRANSPUT_H

#include <stdbool.h>
#include <stddef.h>
#include <stdint.h>

#ifdef __cplusplus
extern "C" {
#endif

/* A page, line and character, each counted from 1. An ALGOL integer below 1 is passed as 0. */
typedef struct transput_position {
    size_t page;
    size_t line;
    size_t character;
} transput_position;

/* What bounds a book and a row. */
enum {
    TRANSPUT_MOST_PAGES = 255,
    TRANSPUT_MOST_LINES = 255,      /* of a page */
    TRANSPUT_MOST_CHARACTERS = 255, /* of a line */
    TRANSPUT_MOST_LINES_IN_ALL = 1024,
    TRANSPUT_MOST_CHARACTERS_IN_ALL = 65536,
    TRANSPUT_MOST_ANSWERS = 64,
    TRANSPUT_INTEGER_WIDTH = 11     /* characters that a put of an integer takes */
};

/* The established shape of a book: pages, lines of a page, characters of a line. Each is at least 1. */
typedef struct transput_shape {
    size_t pages;
    size_t lines;
    size_t characters;
} transput_shape;

/* The rights of a channel. At least one of get and put is needed. */
typedef struct transput_rights {
    bool get;
    bool put;
    bool set;
    bool reset;
    bool compress;
} transput_rights;

/* The file record. The caller fills in shape and rights before establish or open, which set the rest; after that only calls
 * change it. */
typedef struct transput_file {
    transput_position position;
    transput_shape shape;
    bool opened;
    bool reading; /* read mood */
    bool writing; /* write mood */
    bool split;   /* a string that does not fit on its line is split there, as the Report has it; else it is refused with 16 */
    transput_rights rights;
} transput_file;

/* What a call hands back beside the record. */
typedef struct transput_result {
    uint8_t number;        /* one of TRANSPUT_DONE .. TRANSPUT_STRING_DOES_NOT_FIT */
    uint8_t stop;          /* why a get of a string stopped, one of TRANSPUT_NO_STOP .. TRANSPUT_OUTPUT_FULL */
    uint8_t given;         /* one of TRANSPUT_NOTHING, TRANSPUT_CHARACTER, TRANSPUT_INTEGER */
    uint8_t event;         /* the event that a refusal ended in, one of TRANSPUT_EVENT_NONE .. TRANSPUT_EVENT_VALUE */
    int32_t value;         /* the character or the integer; 0 where nothing is given */
    size_t events;         /* events signalled */
    size_t taken;          /* answers taken from the row */
    size_t count;          /* characters that a get of a string delivered, also where it was refused in the end */
    transput_position end; /* the book's logical end after the call: pass it to the next one */
    transput_position signalled; /* where that event was signalled; says nothing with TRANSPUT_EVENT_NONE */
} transput_result;

/* Where a line view lies: `count` characters from index `from` on, of the marker text or of the book's text. */
typedef struct transput_view {
    uint8_t number; /* TRANSPUT_DONE; or NOT_OPEN, BAD_BOOK or OUT_OF_RANGE, with an empty part of the marker text */
    bool marker;
    size_t from;
    size_t count;
} transput_view;

/* What whole hands back: its number, and how many characters it wrote. */
typedef struct transput_wrote {
    uint8_t number;
    size_t count;
} transput_wrote;

/* A span of one line on which two books differ: its page, line, first and last character. A line that only one book shows is one
 * span from 1, ending at 0 where it is empty. */
typedef struct transput_span {
    uint8_t page;
    uint8_t line;
    uint8_t first;
    uint8_t last;
} transput_span;

/* What a comparison of two books hands back: its number, and how many spans there are; 0 where it is refused. */
typedef struct transput_differences {
    uint8_t number; /* TRANSPUT_DONE; or NOT_OPEN or BAD_BOOK, of either book; or OUTPUT_TOO_SHORT, of the list */
    size_t count;
} transput_differences;

/* The number of a call: 0, or why it was refused. A refusal before work changes nothing; one during work, 4 and 5 inside an
 * answer too, leaves the steps that were done. With 8, 11, 14, 15 and 16 goes the event that ended the call, with 9 too where an
 * integer was read, and with no other. 7 is retired: it was 14 and 15 in one; 13 is not used yet. */
enum {
    TRANSPUT_DONE = 0,
    TRANSPUT_NOT_OPEN = 1,
    TRANSPUT_BAD_ANSWERS = 2,       /* more than 64, an unknown kind, an unused field that is not 0, a suggestion above 255 */
    TRANSPUT_BAD_BOOK = 3,          /* shape, sizes, lengths, end, position, moods or rights break the rules */
    TRANSPUT_NO_RIGHT = 4,          /* the channel lacks the right */
    TRANSPUT_NO_MOOD = 5,           /* no mood is on, or the mood cannot be turned */
    TRANSPUT_OUT_OF_RANGE = 6,      /* a place or a width is out of range */
    TRANSPUT_BAD_CHARACTER = 8,     /* a character that cannot be put or got, and no answer gave another */
    TRANSPUT_BAD_VALUE = 9,         /* -2147483648 put, or an integer read that is above 2147483647 */
    TRANSPUT_LINE_TOO_SHORT = 10,   /* the line has no room for an integer */
    TRANSPUT_JUMPED = 11,           /* an answer of kind 8: the program jumped away */
    TRANSPUT_OUTPUT_TOO_SHORT = 12, /* the output lent to whole, or the list lent to differ */
    TRANSPUT_LOGICAL_END_UNMENDED = 14, /* the logical end was met, and no answer mended it */
    TRANSPUT_PHYSICAL_END_UNMENDED = 15, /* the physical end was met, and no answer mended it */
    TRANSPUT_STRING_DOES_NOT_FIT = 16    /* the line ended in a put of a string, and neither an answer nor the choice split it */
};

/* The events. Where an event inside an answer ended the call, that one is told. */
enum {
    TRANSPUT_EVENT_NONE = 0,
    TRANSPUT_EVENT_LOGICAL_END = 1,  /* reading, or set: the book has no more text */
    TRANSPUT_EVENT_PHYSICAL_END = 2, /* writing: the book has no more pages */
    TRANSPUT_EVENT_PAGE_END = 3,
    TRANSPUT_EVENT_LINE_END = 4,
    TRANSPUT_EVENT_CHARACTER = 5,    /* a character that cannot be put or got; it is passed first where it is read */
    TRANSPUT_EVENT_VALUE = 6         /* an integer too large; its text is passed first */
};

/* Why a get of a string stopped. Number 0 alone does not say that a string was read whole; the stop does. */
enum {
    TRANSPUT_NO_STOP = 0,     /* not a get of a string, or one that was refused */
    TRANSPUT_TERMINATOR = 1,  /* a terminator comes next; it was not passed */
    TRANSPUT_LINE_ENDED = 2,  /* the line ended, and its event was answered 0 or not at all */
    TRANSPUT_FILE_ENDED = 3,  /* the logical end came, and its event was answered 0 or not at all */
    TRANSPUT_OUTPUT_FULL = 4
};

/* What is given. */
enum { TRANSPUT_NOTHING = 0, TRANSPUT_CHARACTER = 1, TRANSPUT_INTEGER = 2 };

/* The kinds of an answer. */
enum {
    TRANSPUT_FALSE = 0,          /* the default follows */
    TRANSPUT_TRUE = 1,           /* nothing done */
    TRANSPUT_TRUE_NEWLINE = 2,
    TRANSPUT_TRUE_NEWPAGE = 3,
    TRANSPUT_TRUE_SET = 4,       /* to the three fields */
    TRANSPUT_TRUE_BACKSPACE = 5,
    TRANSPUT_TRUE_RESET = 6,
    TRANSPUT_TRUE_SUGGEST = 7,   /* the character field is suggested at a character event */
    TRANSPUT_JUMP = 8            /* the call ends with TRANSPUT_JUMPED */
};

/* An answer word of a row: kind 4 bits, page 9, line 9, character 10. Fields that a kind does not use are 0. What is too large
 * for its field is cut to it. */
static inline uint32_t transput_answer(uint32_t kind, uint32_t page, uint32_t line, uint32_t character) {
    return kind << 28 | (page & 511) << 19 | (line & 511) << 10 | (character & 1023);
}

/* Each call but transput_whole takes the record, the book's logical end, arguments of its own, the text (pages * lines *
 * characters bytes), the line lengths (one byte a line), the page lengths (one byte a page) and, where it can signal an event, a
 * row of answers: each event takes the next, past the row's end every event is answered 0. The two calls that compare books take
 * both records first, and then one book after the other. Calls that take the lengths as const leave the logical end as it is; so
 * does every call that is refused before work. */

/* Establishes a book over lent memory: every length full, the end and the position (1,1,1), write mood, no split. No character is
 * wiped, and the logical end that is passed is not looked at. */
transput_result transput_establish(transput_file *file, transput_position end, const uint8_t *text, size_t text_length,
    uint8_t *lines, size_t lines_length, uint8_t *pages, size_t pages_length);

/* Opens a book with the logical end that it has; no split. */
transput_result transput_open(transput_file *file, transput_position end, const uint8_t *text, size_t text_length,
    const uint8_t *lines, size_t lines_length, const uint8_t *pages, size_t pages_length);

/* Closes the record. */
transput_result transput_close(transput_file *file, transput_position end, const uint8_t *text, size_t text_length,
    const uint8_t *lines, size_t lines_length, const uint8_t *pages, size_t pages_length);

/* Chooses what becomes of a string that does not fit on its line: with split it goes on in the next line, as the Report has it;
 * without, which is what establish and open choose, it is refused with 16, and what was stored stays. Needs no right and no mood. */
transput_result transput_choose(transput_file *file, transput_position end, bool split, const uint8_t *text, size_t text_length,
    const uint8_t *lines, size_t lines_length, const uint8_t *pages, size_t pages_length);

/* Resets the record to (1,1,1), with its moods by its rights. The choice stays. */
transput_result transput_reset(transput_file *file, transput_position end, const uint8_t *text, size_t text_length,
    const uint8_t *lines, size_t lines_length, const uint8_t *pages, size_t pages_length);

/* Goes one character back on the line. */
transput_result transput_backspace(transput_file *file, transput_position end, const uint8_t *text, size_t text_length,
    const uint8_t *lines, size_t lines_length, const uint8_t *pages, size_t pages_length);

/* Puts a character. At a line end the default is a newline. In a book with compress and without set, a character that takes the
 * logical end back, here and in the puts below, gives the line and the page of the new end and all later ones their full lengths. */
transput_result transput_put_character(transput_file *file, transput_position end, uint8_t b, uint8_t *text, size_t text_length,
    uint8_t *lines, size_t lines_length, uint8_t *pages, size_t pages_length, const uint32_t *row, size_t row_length);

/* Puts the characters of a string in turn; an empty one only turns the mood. At a line end the default is by the record's choice: a
 * newline with split, else refusal 16. */
transput_result transput_put_string(transput_file *file, transput_position end, const uint8_t *bytes, size_t bytes_length,
    uint8_t *text, size_t text_length, uint8_t *lines, size_t lines_length, uint8_t *pages, size_t pages_length,
    const uint32_t *row, size_t row_length);

/* Puts an integer in 11 characters, whole(v, 11), with a blank before it where the line has begun. */
transput_result transput_put_integer(transput_file *file, transput_position end, int32_t v, uint8_t *text, size_t text_length,
    uint8_t *lines, size_t lines_length, uint8_t *pages, size_t pages_length, const uint32_t *row, size_t row_length);

/* Gets a character: given is TRANSPUT_CHARACTER where it is done. */
transput_result transput_get_character(transput_file *file, transput_position end, uint8_t *text, size_t text_length,
    uint8_t *lines, size_t lines_length, uint8_t *pages, size_t pages_length, const uint32_t *row, size_t row_length);

/* Gets a string into the lent output, up to a stop; count says how many characters were delivered, and the output past them is
 * untouched. A byte of the terminators stops it. */
transput_result transput_get_string(transput_file *file, transput_position end, const uint8_t *terminators,
    size_t terminators_length, uint8_t *output, size_t output_length, uint8_t *text, size_t text_length, uint8_t *lines,
    size_t lines_length, uint8_t *pages, size_t pages_length, const uint32_t *row, size_t row_length);

/* Gets an integer: given is TRANSPUT_INTEGER where one was read, TRANSPUT_NOTHING where it was too large and an answer passed
 * it. */
transput_result transput_get_integer(transput_file *file, transput_position end, uint8_t *text, size_t text_length,
    uint8_t *lines, size_t lines_length, uint8_t *pages, size_t pages_length, const uint32_t *row, size_t row_length);

/* Space: past a character; writing at the logical end, puts a blank. */
transput_result transput_space(transput_file *file, transput_position end, uint8_t *text, size_t text_length, uint8_t *lines,
    size_t lines_length, uint8_t *pages, size_t pages_length, const uint32_t *row, size_t row_length);

/* To the start of the next line. Writing on the logical end's line, the line is cut there (with compress) or filled with blanks. */
transput_result transput_newline(transput_file *file, transput_position end, uint8_t *text, size_t text_length, uint8_t *lines,
    size_t lines_length, uint8_t *pages, size_t pages_length, const uint32_t *row, size_t row_length);

/* To the start of the next page. Writing on the logical end's page, line and page are cut (with compress) or filled with blanks. */
transput_result transput_newpage(transput_file *file, transput_position end, uint8_t *text, size_t text_length, uint8_t *lines,
    size_t lines_length, uint8_t *pages, size_t pages_length, const uint32_t *row, size_t row_length);

/* To a place in the book; beyond the logical end, goes to that end and signals it. */
transput_result transput_set(transput_file *file, transput_position end, transput_position to, uint8_t *text, size_t text_length,
    uint8_t *lines, size_t lines_length, uint8_t *pages, size_t pages_length, const uint32_t *row, size_t row_length);

/* To character n of the line. */
transput_result transput_set_character_number(transput_file *file, transput_position end, size_t n, uint8_t *text,
    size_t text_length, uint8_t *lines, size_t lines_length, uint8_t *pages, size_t pages_length, const uint32_t *row,
    size_t row_length);

/* Where a shown line lies, up to the logical end: in the text, or where it is empty the whole marker text, so that no blank passes
 * for nothing. The record is only read. */
transput_view transput_line_view(const transput_file *file, transput_position end, size_t page, size_t line, const uint8_t *text,
    size_t text_length, const uint8_t *lines, size_t lines_length, const uint8_t *pages, size_t pages_length,
    const uint8_t *marker, size_t marker_length);

/* The number of a line view, asked for apart. */
transput_result transput_view_number(const transput_file *file, transput_position end, size_t page, size_t line,
    const uint8_t *text, size_t text_length, const uint8_t *lines, size_t lines_length, const uint8_t *pages, size_t pages_length);

/* Lists every span of a line on which the shown texts of two books differ, in the order of their positions, each as long as it can
 * be; the shapes may differ, and a blank is not nothing. The list is bytes, four a span, so an array of transput_span can be lent
 * with its size in bytes; what lies past the count is untouched, and a list that is too short is left as it was. */
transput_differences transput_differ(const transput_file *file, const transput_file *other_file, transput_position end,
    const uint8_t *text, size_t text_length, const uint8_t *lines, size_t lines_length, const uint8_t *pages, size_t pages_length,
    transput_position other_end, const uint8_t *other_text, size_t other_text_length, const uint8_t *other_lines,
    size_t other_lines_length, const uint8_t *other_pages, size_t other_pages_length, uint8_t *list, size_t list_length);

/* How many such spans there are, asked for apart: the list needs four bytes for each. */
transput_differences transput_difference_count(const transput_file *file, const transput_file *other_file, transput_position end,
    const uint8_t *text, size_t text_length, const uint8_t *lines, size_t lines_length, const uint8_t *pages, size_t pages_length,
    transput_position other_end, const uint8_t *other_text, size_t other_text_length, const uint8_t *other_lines,
    size_t other_lines_length, const uint8_t *other_pages, size_t other_pages_length);

/* whole(v, w), w from -255 to 255, at the start of the output; the output past it is untouched. */
transput_wrote transput_whole(int32_t v, int32_t w, uint8_t *output, size_t output_length);

#ifdef __cplusplus
}
#endif

#endif
