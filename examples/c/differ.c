/* A second client of transput.h: it renders a small site before and after an edit of its template, and lists where the two differ.
 *
 * Three things to see in its output:
 *  - an edit of the template shows on every page, with only the characters that it changed;
 *  - a line that one book lacks is one span, and where it is empty that span ends at 0;
 *  - the count says how long the list must be, and to a list that is too short nothing is written.
 */
#include <stdio.h>
#include <stdlib.h>
#include <string.h>

#include "transput.h"

enum { PAGES = 2, LINES = 6, CHARACTERS = 32 };

/* The memory of a book, its logical end, and the record of the file that is open on it. */
typedef struct site {
    const char *name;
    transput_file file;
    transput_position end;
    uint8_t text[PAGES * LINES * CHARACTERS];
    uint8_t lines[PAGES * LINES];
    uint8_t pages[PAGES];
} site;

/* What stands on every page around its own title and words. */
typedef struct template {
    const char *heading;
    const char *links;
    const char *footer;
    bool contact; /* a line after the footer */
} template;

/* What most calls take after their own arguments: the book, and a row of answers. */
#define BOOK(s) (s)->text, sizeof (s)->text, (s)->lines, sizeof (s)->lines, (s)->pages, sizeof (s)->pages
#define NO_ANSWERS NULL, 0

/* What the calls that compare two sites take before the list. */
#define BOTH(one, other) &(one)->file, &(other)->file, (one)->end, BOOK(one), (other)->end, BOOK(other)

static const char *refusal_words(uint8_t number) {
    switch (number) {
    case TRANSPUT_NOT_OPEN:
        return "one of the records is not open";
    case TRANSPUT_BAD_BOOK:
        return "one of the records or books is bad";
    case TRANSPUT_OUTPUT_TOO_SHORT:
        return "the list is too short";
    default:
        return "a number that this program does not expect";
    }
}

/* ---- rendering ---- */

/* Every call on one book ends here: the book's end is the one that the call handed back. */
static bool done(site *s, transput_result result) {
    s->end = result.end;
    if (result.number != TRANSPUT_DONE) {
        printf("  %s: refused %d\n", s->name, result.number);
    }
    return result.number == TRANSPUT_DONE;
}

static bool establish(site *s) {
    s->file.shape = (transput_shape){.pages = PAGES, .lines = LINES, .characters = CHARACTERS};
    s->file.rights = (transput_rights){.put = true, .compress = true};
    return done(s, transput_establish(&s->file, s->end, BOOK(s)));
}

static bool put(site *s, const char *string) {
    const uint8_t *bytes = (const uint8_t *)string;
    return done(s, transput_put_string(&s->file, s->end, bytes, strlen(string), BOOK(s), NO_ANSWERS));
}

static bool newline(site *s) {
    return done(s, transput_newline(&s->file, s->end, BOOK(s), NO_ANSWERS));
}

static bool newpage(site *s) {
    return done(s, transput_newpage(&s->file, s->end, BOOK(s), NO_ANSWERS));
}

static bool render_page(site *s, const template *t, const char *title, const char *words) {
    return put(s, t->heading) && put(s, title) && newline(s)
        && put(s, t->links) && newline(s)
        && put(s, words) && newline(s)
        && put(s, t->footer)
        && (!t->contact || (newline(s) && put(s, "Write to us.") && newline(s)));
}

static bool render(site *s, const template *t) {
    return establish(s)
        && render_page(s, t, "home", "Open from nine to five.") && newpage(s)
        && render_page(s, t, "about", "Three beds and a pond.");
}

/* ---- comparing ---- */

static bool compared(const char *what, transput_differences differences) {
    if (differences.number != TRANSPUT_DONE) {
        printf("  %s: refused %d, %s\n", what, differences.number, refusal_words(differences.number));
    }
    return differences.number == TRANSPUT_DONE;
}

static size_t smaller(size_t a, size_t b) {
    return a < b ? a : b;
}

/* What a site shows in a span: its own line may end before the span does, or not be shown at all. */
static void print_part(const site *s, transput_span span) {
    transput_view view = transput_line_view(&s->file, s->end, span.page, span.line, BOOK(s), NULL, 0);
    size_t to = smaller(span.last, view.count);
    size_t from = smaller(span.first - 1u, to);
    if (view.number != TRANSPUT_DONE) {
        printf(" no line %s", s->name);
    } else {
        printf(" \"%.*s\" %s", (int)(to - from), (const char *)s->text + view.from + from, s->name);
    }
}

static void print_span(const site *one, const site *other, transput_span span) {
    printf("  %d %d %d..%d:", span.page, span.line, span.first, span.last);
    print_part(one, span);
    printf(",");
    print_part(other, span);
    printf("\n");
}

/* Asks for the count, lends a list that has room for as many spans, and prints them. */
static bool print_differences(const site *one, const site *other) {
    transput_differences counted = transput_difference_count(BOTH(one, other));
    if (!compared("count", counted)) {
        return false;
    }
    size_t size = counted.count * sizeof(transput_span);
    transput_span *list = malloc(size);
    transput_differences listed = transput_differ(BOTH(one, other), (uint8_t *)list, list == NULL ? 0 : size);
    bool good = compared("list", listed);
    for (size_t i = 0; i < listed.count; i++) {
        print_span(one, other, list[i]);
    }
    printf("  spans %zu\n", listed.count);
    free(list);
    return good;
}

/* Comparisons that are refused, each with another number. True where every one was, and the list is as it was lent. */
static bool refused_comparisons(const site *one, const site *other) {
    site changed = *other;
    transput_span list[2], lent[2];
    uint8_t *bytes = (uint8_t *)list;
    memset(lent, 0xee, sizeof lent);
    memcpy(list, lent, sizeof list);
    bool any = compared("a list of two spans", transput_differ(BOTH(one, other), bytes, sizeof list));
    changed.file.shape.lines = LINES + 1;
    any = compared("a shape that is not the book's", transput_differ(BOTH(one, &changed), bytes, sizeof list)) || any;
    changed.file.opened = false;
    any = compared("a record that is closed", transput_differ(BOTH(&changed, one), bytes, sizeof list)) || any;
    return !any && memcmp(list, lent, sizeof list) == 0;
}

int main(void) {
    static site before = {.name = "before"}, after = {.name = "after"};
    const template old_template = {"The garden: ", "home / about", "Written in 2025", false};
    const template new_template = {"The garden, ", "home | about | map", "Written in 2026", true};
    bool good = render(&before, &old_template) && render(&after, &new_template);
    printf("a site and itself:\n");
    good = good && print_differences(&before, &before);
    printf("before and after the edit:\n");
    good = good && print_differences(&before, &after);
    printf("refused:\n");
    good = refused_comparisons(&before, &after) && good;
    return good ? 0 : 1;
}
