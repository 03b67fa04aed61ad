/* A small client of transput.h: it writes a fragment of a router's configuration into a book, twice, shows its lines and reads them back.
 *
 * Five things to see in its output:
 *  - an address that does not fit on its line is refused: it is told where it broke off, and nothing more is stored;
 *  - with the Report's split it is split by the default newline, and the put is done all the same;
 *  - number 0 does not say that a string was read whole: its stop does;
 *  - a refusal that an event ended in says which event it was, and where;
 *  - an empty line is shown as the marker, so that no blank passes for nothing.
 */
#include <stdio.h>
#include <string.h>

#include "transput.h"

enum { PAGES = 1, LINES = 8, CHARACTERS = 24 };

/* The memory of a book, its logical end, and the record of the file that is open on it. */
typedef struct fragment {
    transput_file file;
    transput_position end;
    uint8_t text[PAGES * LINES * CHARACTERS];
    uint8_t lines[PAGES * LINES];
    uint8_t pages[PAGES];
} fragment;

/* What most calls take after their own arguments: the book, and a row of answers. */
#define BOOK(f) (f)->text, sizeof (f)->text, (f)->lines, sizeof (f)->lines, (f)->pages, sizeof (f)->pages
#define NO_ANSWERS NULL, 0

/* ---- words for the numbers ---- */

static const char *refusal_words(uint8_t number) {
    static const char *const words[] = {
        [TRANSPUT_DONE] = "done",
        [TRANSPUT_NOT_OPEN] = "the record is not open",
        [TRANSPUT_BAD_ANSWERS] = "the answers are bad",
        [TRANSPUT_BAD_BOOK] = "the record or the book is bad",
        [TRANSPUT_NO_RIGHT] = "the channel lacks the right",
        [TRANSPUT_NO_MOOD] = "no mood is on, or it cannot be turned",
        [TRANSPUT_OUT_OF_RANGE] = "a place or a width is out of range",
        [TRANSPUT_BAD_CHARACTER] = "a character that cannot be put or got",
        [TRANSPUT_BAD_VALUE] = "an integer that is too large",
        [TRANSPUT_LINE_TOO_SHORT] = "the line is too short for an integer",
        [TRANSPUT_JUMPED] = "the program jumped away",
        [TRANSPUT_OUTPUT_TOO_SHORT] = "the output is too short",
        [TRANSPUT_LOGICAL_END_UNMENDED] = "no answer mended the logical end",
        [TRANSPUT_PHYSICAL_END_UNMENDED] = "no answer mended the physical end",
        [TRANSPUT_STRING_DOES_NOT_FIT] = "the string does not fit on its line",
    };
    bool known = number < sizeof words / sizeof words[0] && words[number] != NULL;
    return known ? words[number] : "unknown number";
}

static const char *event_words(uint8_t event) {
    switch (event) {
    case TRANSPUT_EVENT_LOGICAL_END:
        return "logical end";
    case TRANSPUT_EVENT_PHYSICAL_END:
        return "physical end";
    case TRANSPUT_EVENT_PAGE_END:
        return "page end";
    case TRANSPUT_EVENT_LINE_END:
        return "line end";
    case TRANSPUT_EVENT_CHARACTER:
        return "character";
    case TRANSPUT_EVENT_VALUE:
        return "value";
    default:
        return "none";
    }
}

static const char *stop_words(uint8_t stop) {
    switch (stop) {
    case TRANSPUT_TERMINATOR:
        return "a terminator comes next";
    case TRANSPUT_LINE_ENDED:
        return "the line ended";
    case TRANSPUT_FILE_ENDED:
        return "the logical end came";
    case TRANSPUT_OUTPUT_FULL:
        return "the output is full";
    default:
        return "no stop";
    }
}

/* ---- one function for each kind of call ---- */

/* Every call ends here: the book's end is the one that the call handed back, and a refusal is never passed over. */
static bool done(fragment *f, const char *call, transput_result result) {
    f->end = result.end;
    if (result.number != TRANSPUT_DONE) {
        printf("  %s: refused %d, %s", call, result.number, refusal_words(result.number));
        if (result.event != TRANSPUT_EVENT_NONE) {
            transput_position at = result.signalled;
            printf(" (%s at page %zu line %zu character %zu)", event_words(result.event), at.page, at.line, at.character);
        }
        printf("\n");
    }
    return result.number == TRANSPUT_DONE;
}

/* An established book of a channel with every right but set. */
static bool establish(fragment *f) {
    memset(f, 0, sizeof *f);
    f->file.shape = (transput_shape){.pages = PAGES, .lines = LINES, .characters = CHARACTERS};
    f->file.rights = (transput_rights){.get = true, .put = true, .reset = true, .compress = true};
    return done(f, "establish", transput_establish(&f->file, f->end, BOOK(f)));
}

/* The Report's split, for strings that do not fit on their line. */
static bool choose_split(fragment *f) {
    return done(f, "choose", transput_choose(&f->file, f->end, true, BOOK(f)));
}

static bool reset(fragment *f) {
    return done(f, "reset", transput_reset(&f->file, f->end, BOOK(f)));
}

static bool newline(fragment *f) {
    return done(f, "newline", transput_newline(&f->file, f->end, BOOK(f), NO_ANSWERS));
}

static bool space(fragment *f) {
    return done(f, "space", transput_space(&f->file, f->end, BOOK(f), NO_ANSWERS));
}

/* Puts a string, and says so where an event was signalled: here it can only be a line end. Its default is a refusal or, with the
 * Report's split, a newline. */
static bool put(fragment *f, const char *string) {
    const uint8_t *bytes = (const uint8_t *)string;
    transput_result result = transput_put_string(&f->file, f->end, bytes, strlen(string), BOOK(f), NO_ANSWERS);
    if (result.events > 0) {
        printf("  put \"%s\": events %zu\n", string, result.events);
    }
    return done(f, "put", result);
}

static bool put_integer(fragment *f, int32_t value) {
    return done(f, "put integer", transput_put_integer(&f->file, f->end, value, BOOK(f), NO_ANSWERS));
}

/* Gets a string of at most `room` characters up to one of the terminators, and says what came and why it stopped. */
static bool get(fragment *f, size_t room, const char *terminators, const uint32_t *row, size_t row_length) {
    uint8_t output[2 * CHARACTERS];
    const uint8_t *stops = (const uint8_t *)terminators;
    size_t output_length = room < sizeof output ? room : sizeof output;
    transput_result result = transput_get_string(
        &f->file, f->end, stops, strlen(terminators), output, output_length, BOOK(f), row, row_length);
    if (!done(f, "get", result)) {
        return false;
    }
    printf("  \"%.*s\": %s", (int)result.count, (const char *)output, stop_words(result.stop));
    if (result.events > 0) {
        printf(" (events %zu, answers taken %zu)", result.events, result.taken);
    }
    printf("\n");
    return true;
}

/* A string up to the end of its line, and one up to a blank. */
static bool get_line(fragment *f) {
    return get(f, 2 * CHARACTERS, "", NO_ANSWERS);
}

static bool get_word(fragment *f) {
    return get(f, 2 * CHARACTERS, " ", NO_ANSWERS);
}

static bool get_integer(fragment *f) {
    transput_result result = transput_get_integer(&f->file, f->end, BOOK(f), NO_ANSWERS);
    if (result.given == TRANSPUT_INTEGER) {
        printf("  integer %d\n", (int)result.value);
    }
    return done(f, "get integer", result);
}

/* ---- the program ---- */

/* Line 4 has room for 24 characters: the address on it breaks off after its third point. */
static bool write_fragment(fragment *f) {
    return put(f, "interface loopback0") && newline(f)
        && put(f, "mtu") && put_integer(f, 1500) && newline(f)
        && newline(f)
        && put(f, "permit tcp host 192.0.2.117 any") && newline(f)
        && put(f, "deny any");
}

/* Shows one line: where it lies is handed back, in the text or, where it is empty, in the marker. Bars stand around what the book
 * holds, and none around the marker. */
static bool show_line(const fragment *f, size_t page, size_t line) {
    static const uint8_t marker[] = "(blank)";
    size_t marker_length = sizeof marker - 1;
    transput_view view = transput_line_view(&f->file, f->end, page, line, BOOK(f), marker, marker_length);
    if (view.number != TRANSPUT_DONE) {
        printf("  view of line %zu: refused %d, %s\n", line, view.number, refusal_words(view.number));
        return false;
    }
    const uint8_t *from = (view.marker ? marker : f->text) + view.from;
    const char *bar = view.marker ? "" : "|";
    printf("  %zu %zu %s%.*s%s\n", page, line, bar, (int)view.count, (const char *)from, bar);
    return true;
}

/* Shows the lines from the first on. The one after the last that is shown is refused, and that ends the list. */
static void show_fragment(const fragment *f) {
    size_t line = 1;
    while (line <= LINES && show_line(f, 1, line)) {
        line += 1;
    }
    printf("  end %zu %zu %zu\n", f->end.page, f->end.line, f->end.character);
}

/* The first lines: a string that is the whole line, a word and an integer, and a line that is empty. */
static bool read_first_lines(fragment *f) {
    return reset(f)
        && get_line(f) && newline(f)
        && get_word(f) && get_integer(f) && newline(f)
        && get_line(f) && newline(f);
}

/* The address, read twice. With no answer the string ends with the line, and what came is no address. With a newline as the answer
 * to the line's end it goes on to the next line and stops at the blank after the address. */
static bool read_address(fragment *f) {
    const uint32_t go_on[] = {transput_answer(TRANSPUT_TRUE_NEWLINE, 0, 0, 0)};
    size_t start;
    bool good = get_word(f) && space(f) && get_word(f) && space(f) && get_word(f) && space(f);
    start = f->file.position.character;
    good = good && get_word(f);
    good = good && done(f, "set character number",
        transput_set_character_number(&f->file, f->end, start, BOOK(f), NO_ANSWERS));
    return good && get(f, 2 * CHARACTERS, " ", go_on, 1);
}

/* What follows the address, then a string into an output of four characters, and the rest up to the logical end. */
static bool read_rest(fragment *f) {
    return space(f) && get_word(f) && newline(f)
        && get(f, 4, "", NO_ANSWERS)
        && get_line(f);
}

/* Calls that are refused, each with another number. True where every one was. */
static bool refused_calls(fragment *f) {
    const uint32_t unknown[] = {transput_answer(9, 0, 0, 0)};
    bool any = show_line(f, 1, LINES);
    any = get(f, CHARACTERS, "", unknown, 1) || any;
    any = put_integer(f, INT32_MIN) || any;
    any = done(f, "set", transput_set(&f->file, f->end, f->end, BOOK(f), NO_ANSWERS)) || any;
    any = put(f, "permit any") || any;
    any = get_integer(f) || any;
    done(f, "close", transput_close(&f->file, f->end, BOOK(f)));
    any = get_line(f) || any;
    return !any;
}

int main(void) {
    static fragment f;
    bool good;
    printf("written, as a record is established:\n");
    good = establish(&f) && !write_fragment(&f);
    printf("shown:\n");
    show_fragment(&f);
    printf("written with the Report's split:\n");
    good = establish(&f) && choose_split(&f) && write_fragment(&f) && good;
    printf("shown:\n");
    show_fragment(&f);
    printf("read back:\n");
    good = good && read_first_lines(&f) && read_address(&f) && read_rest(&f);
    printf("refused:\n");
    good = refused_calls(&f) && good;
    return good ? 0 : 1;
}
