/* Plays a script through the declarations of transput.h and prints all that each call hands back and leaves: every field of its
 * result and of the record, and the whole book.
 *
 * The script is of the format that README.md gives for replay, without bad lines and comments. A line `large N` says which number
 * 65535 stands for from there on. `view` makes both calls of a view, and `differ` both calls that compare two books. What is empty
 * is lent with a null pointer. A line that cannot be read ends the program with status 1.
 */
#include <inttypes.h>
#include <stdio.h>
#include <stdlib.h>
#include <string.h>

#include "transput.h"

enum { TEXT_ROOM = 70000, LINES_ROOM = 1100, PAGES_ROOM = 300, ROW_ROOM = 80, OUTPUT_ROOM = 4096, LONGEST_LINE = 140000 };
enum { ENTRIES_ROOM = 4096, LIST_ROOM = 4 * ENTRIES_ROOM + 3 };

/* A record and a book. All lines and calls work on the first side; a swap exchanges the two. */
typedef struct side {
    transput_file file;
    transput_position end;
    uint8_t text[TEXT_ROOM], lines[LINES_ROOM], pages[PAGES_ROOM];
    size_t text_length, lines_length, pages_length;
} side;

static side sides[2];
static side *first = &sides[0];
static side *other = &sides[1];

/* The answers for the next call, and what the call at hand is lent beside them. */
static struct {
    uint32_t row[ROW_ROOM];
    size_t row_length;
    uint8_t bytes[TEXT_ROOM], output[OUTPUT_ROOM], list[LIST_ROOM];
    size_t bytes_length, output_length, list_length;
    size_t large;
} stage;

/* A part of a side or of the stage and its length, as two arguments. */
#define PART(of, part) ((of)->part##_length == 0 ? NULL : (of)->part), (of)->part##_length
#define LENT(part) PART(&stage, part)
#define BOOK_OF(of) PART(of, text), PART(of, lines), PART(of, pages)
#define RECORD &first->file, first->end
#define BOOK BOOK_OF(first)
#define BOOK_AND_ROW BOOK, LENT(row)
#define BOTH &first->file, &other->file, first->end, BOOK_OF(first), other->end, BOOK_OF(other)

/* ---- reading the words of a line ---- */

static void fail(const char *why) {
    fprintf(stderr, "play: %s\n", why);
    exit(1);
}

static const char *next_word(void) {
    const char *word = strtok(NULL, " ");
    if (word == NULL) {
        fail("a word is missing");
    }
    return word;
}

static intmax_t next_integer(void) {
    const char *word = next_word();
    char *rest;
    intmax_t number = strtoimax(word, &rest, 10);
    if (rest == word || *rest != '\0') {
        fail("not a number");
    }
    return number;
}

static size_t next_size(size_t most) {
    intmax_t number = next_integer();
    if (number < 0 || (uintmax_t)number > most) {
        fail("a size is out of range");
    }
    return (size_t)number;
}

/* A number of a scene or a call: a script has none above 65535, which stands for a larger one. */
static size_t next_number(void) {
    size_t number = next_size(65535);
    return number == 65535 ? stage.large : number;
}

static transput_position next_position(void) {
    transput_position position;
    position.page = next_number();
    position.line = next_number();
    position.character = next_number();
    return position;
}

/* Bytes as pairs of hex digits, `-` for none: how many there are. */
static size_t next_bytes(uint8_t *to, size_t room) {
    const char *word = next_word();
    size_t count = strcmp(word, "-") == 0 ? 0 : strlen(word) / 2;
    if (count > room) {
        fail("the bytes do not fit");
    }
    for (size_t i = 0; i < count; i++) {
        char pair[] = {word[2 * i], word[2 * i + 1], '\0'};
        to[i] = (uint8_t)strtoul(pair, NULL, 16);
    }
    return count;
}

static void next_bytes_at(uint8_t *to, size_t room) {
    size_t index = next_size(room);
    next_bytes(to + index, room - index);
}

/* ---- printing ---- */

static void print_bytes(const char *name, const uint8_t *bytes, size_t length) {
    static const char digits[] = "0123456789abcdef";
    static char hex[2 * TEXT_ROOM + 1];
    for (size_t i = 0; i < length; i++) {
        hex[2 * i] = digits[bytes[i] >> 4];
        hex[2 * i + 1] = digits[bytes[i] & 15];
    }
    hex[2 * length] = '\0';
    printf("%s %s\n", name, hex);
}

static void print_position(const char *name, transput_position position) {
    printf("%s %zu %zu %zu\n", name, position.page, position.line, position.character);
}

static void print_side(const side *shown) {
    const transput_file *file = &shown->file;
    printf("record %d %d %d %d\n", file->opened, file->reading, file->writing, file->split);
    print_position("position", file->position);
    printf("shape %zu %zu %zu\n", file->shape.pages, file->shape.lines, file->shape.characters);
    printf("rights %d %d %d %d %d\n", file->rights.get, file->rights.put, file->rights.set, file->rights.reset,
        file->rights.compress);
    print_position("book end", shown->end);
    print_bytes("text", shown->text, shown->text_length);
    print_bytes("lines", shown->lines, shown->lines_length);
    print_bytes("pages", shown->pages, shown->pages_length);
}

static void print_stage(void) {
    print_side(first);
    print_bytes("output", stage.output, stage.output_length);
}

static void print_result(transput_result result) {
    printf("number %d stop %d event %d\n", result.number, result.stop, result.event);
    printf("given %d value %" PRId32 "\n", result.given, result.value);
    printf("events %zu taken %zu count %zu\n", result.events, result.taken, result.count);
    print_position("end", result.end);
    print_position("signalled", result.signalled);
}

static void print_differences(const char *name, transput_differences differences) {
    printf("%s %d %zu\n", name, differences.number, differences.count);
}

/* ---- the lines that set the scene ---- */

static void scene_large(void) {
    stage.large = (size_t)strtoumax(next_word(), NULL, 10);
}

static void scene_shape(void) {
    first->file.shape.pages = next_number();
    first->file.shape.lines = next_number();
    first->file.shape.characters = next_number();
}

static void scene_lend(void) {
    first->text_length = next_size(TEXT_ROOM);
    first->lines_length = next_size(LINES_ROOM);
    first->pages_length = next_size(PAGES_ROOM);
}

static void scene_rights(void) {
    const char *word = next_word();
    transput_rights *rights = &first->file.rights;
    rights->get = strchr(word, 'g') != NULL;
    rights->put = strchr(word, 'p') != NULL;
    rights->set = strchr(word, 's') != NULL;
    rights->reset = strchr(word, 'r') != NULL;
    rights->compress = strchr(word, 'c') != NULL;
}

static void scene_record(void) {
    first->file.opened = next_size(1) == 1;
    first->file.reading = next_size(1) == 1;
    first->file.writing = next_size(1) == 1;
    first->file.position = next_position();
    const char *choice = strtok(NULL, " ");
    if (choice != NULL) {
        first->file.split = strcmp(choice, "1") == 0;
    }
}

static void scene_end(void) {
    first->end = next_position();
}

static void scene_fill(void) {
    uint8_t byte = 0;
    next_bytes(&byte, 1);
    memset(first->text, byte, TEXT_ROOM);
}

static void scene_text(void) {
    next_bytes_at(first->text, TEXT_ROOM);
}

static void scene_lines(void) {
    next_bytes_at(first->lines, LINES_ROOM);
}

static void scene_pages(void) {
    next_bytes_at(first->pages, PAGES_ROOM);
}

static void scene_row(void) {
    const char *word;
    stage.row_length = 0;
    while ((word = strtok(NULL, " ")) != NULL) {
        if (stage.row_length == ROW_ROOM) {
            fail("the row does not fit");
        }
        stage.row[stage.row_length] = (uint32_t)strtoul(word, NULL, 16);
        stage.row_length += 1;
    }
}

static void scene_swap(void) {
    side *was_first = first;
    first = other;
    other = was_first;
}

/* ---- the calls ---- */

/* Takes the end that a call handed back, and prints all. */
static void end_call(transput_result result) {
    first->end = result.end;
    print_result(result);
    print_stage();
}

/* An output full of ee, of the size that comes next. */
static void lend_output(void) {
    stage.output_length = next_size(OUTPUT_ROOM);
    memset(stage.output, 0xee, stage.output_length);
}

static void lend_bytes(void) {
    stage.bytes_length = next_bytes(stage.bytes, sizeof stage.bytes);
}

static void call_establish(void) {
    end_call(transput_establish(RECORD, BOOK));
}

static void call_open(void) {
    end_call(transput_open(RECORD, BOOK));
}

static void call_close(void) {
    end_call(transput_close(RECORD, BOOK));
}

static void call_split(void) {
    end_call(transput_choose(RECORD, true, BOOK));
}

static void call_fit(void) {
    end_call(transput_choose(RECORD, false, BOOK));
}

static void call_reset(void) {
    end_call(transput_reset(RECORD, BOOK));
}

static void call_backspace(void) {
    end_call(transput_backspace(RECORD, BOOK));
}

static void call_put_character(void) {
    uint8_t byte = 0;
    next_bytes(&byte, 1);
    end_call(transput_put_character(RECORD, byte, BOOK_AND_ROW));
}

static void call_put_string(void) {
    lend_bytes();
    end_call(transput_put_string(RECORD, LENT(bytes), BOOK_AND_ROW));
}

static void call_put_integer(void) {
    end_call(transput_put_integer(RECORD, (int32_t)next_integer(), BOOK_AND_ROW));
}

static void call_get_character(void) {
    end_call(transput_get_character(RECORD, BOOK_AND_ROW));
}

static void call_get_string(void) {
    lend_output();
    lend_bytes();
    end_call(transput_get_string(RECORD, LENT(bytes), LENT(output), BOOK_AND_ROW));
}

static void call_get_integer(void) {
    end_call(transput_get_integer(RECORD, BOOK_AND_ROW));
}

static void call_space(void) {
    end_call(transput_space(RECORD, BOOK_AND_ROW));
}

static void call_newline(void) {
    end_call(transput_newline(RECORD, BOOK_AND_ROW));
}

static void call_newpage(void) {
    end_call(transput_newpage(RECORD, BOOK_AND_ROW));
}

static void call_set(void) {
    transput_position to = next_position();
    end_call(transput_set(RECORD, to, BOOK_AND_ROW));
}

static void call_set_character_number(void) {
    size_t number = next_number();
    end_call(transput_set_character_number(RECORD, number, BOOK_AND_ROW));
}

static void call_view(void) {
    size_t page = next_number();
    size_t line = next_number();
    lend_bytes();
    transput_view view = transput_line_view(RECORD, page, line, BOOK, LENT(bytes));
    printf("view %d %d %zu %zu\n", view.number, view.marker, view.from, view.count);
    end_call(transput_view_number(RECORD, page, line, BOOK));
}

/* A list full of ee, with up to three bytes more than its entries need. */
static void lend_list(void) {
    size_t entries = next_size(ENTRIES_ROOM);
    stage.list_length = 4 * entries + entries % 4;
    memset(stage.list, 0xee, stage.list_length);
}

static void call_differ(void) {
    lend_list();
    print_differences("listed", transput_differ(BOTH, LENT(list)));
    print_differences("counted", transput_difference_count(BOTH));
    print_bytes("list", stage.list, stage.list_length);
    print_side(first);
    print_side(other);
}

static void call_whole(void) {
    int32_t value = (int32_t)next_integer();
    int32_t width = (int32_t)next_integer();
    lend_output();
    transput_wrote wrote = transput_whole(value, width, LENT(output));
    printf("wrote %d %zu\n", wrote.number, wrote.count);
    print_stage();
}

/* ---- the script ---- */

/* What a line does, and whether it is a call, which uses up the row. */
static const struct command {
    const char *name;
    void (*play)(void);
    bool call;
} commands[] = {
    {"large", scene_large, false},
    {"shape", scene_shape, false},
    {"lend", scene_lend, false},
    {"rights", scene_rights, false},
    {"record", scene_record, false},
    {"end", scene_end, false},
    {"fill", scene_fill, false},
    {"text", scene_text, false},
    {"lines", scene_lines, false},
    {"pages", scene_pages, false},
    {"row", scene_row, false},
    {"swap", scene_swap, false},
    {"dump", print_stage, false},
    {"establish", call_establish, true},
    {"open", call_open, true},
    {"close", call_close, true},
    {"split", call_split, true},
    {"fit", call_fit, true},
    {"reset", call_reset, true},
    {"backspace", call_backspace, true},
    {"putc", call_put_character, true},
    {"puts", call_put_string, true},
    {"puti", call_put_integer, true},
    {"getc", call_get_character, true},
    {"gets", call_get_string, true},
    {"geti", call_get_integer, true},
    {"space", call_space, true},
    {"newline", call_newline, true},
    {"newpage", call_newpage, true},
    {"set", call_set, true},
    {"setc", call_set_character_number, true},
    {"view", call_view, true},
    {"differ", call_differ, true},
    {"whole", call_whole, true},
};

static const struct command *find_command(const char *name) {
    for (size_t i = 0; i < sizeof commands / sizeof commands[0]; i++) {
        if (strcmp(name, commands[i].name) == 0) {
            return &commands[i];
        }
    }
    fail("an unknown line");
    return NULL;
}

static void play_line(char *line) {
    const char *name;
    line[strcspn(line, "\n")] = '\0';
    name = strtok(line, " ");
    const struct command *command = find_command(name == NULL ? "" : name);
    stage.output_length = 0;
    if (command->call) {
        printf("call %s\n", command->name);
    }
    command->play();
    if (command->call) {
        stage.row_length = 0;
    }
}

int main(void) {
    static char line[LONGEST_LINE + 2];
    stage.large = 65535;
    while (fgets(line, sizeof line, stdin) != NULL) {
        play_line(line);
    }
    return 0;
}
