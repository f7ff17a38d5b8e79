/* Makes calls at random, valid and not, and looks at what each returns and writes: random CALLS [SEED [FOLDER]].
 *
 * Into FOLDER it writes a text, the script whose lines ask what the calls asked, and the output that the program has to
 * print for them. What no line asks it compares with a text and marks of its own. */
#include "displaymap.h"
#include <stdarg.h>
#include <stdio.h>
#include <stdlib.h>
#include <string.h>

#define UNTOUCHED 7777

static displaymap d, other; /* the display, and a handle that is opened and closed */
static uint64_t state;
static uint32_t refused;
static FILE *script, *output; /* NULL without a folder */

static char text[8192]; /* what the display has to have */
static uint32_t length;

#define MARKS 12

static struct mark {
    bool there, right;
    uint32_t offset;
} marks[MARKS]; /* those that the display has to have */

static uint8_t too_many[33554432 + 1];

static char answer[1 << 18]; /* the last answer, with a NUL after it */
static size_t answer_length;

#define ROWS 16384

/* All rows as an answer has them: each starts with its kind, and ends with a LF. */
static struct rows {
    char bytes[sizeof answer];
    const char *starts[ROWS];
    uint32_t count;
} both[2], *seen = both, *now = both + 1; /* when it was last asked which rows changed, and now */

static const char *const sides[2] = {"left", "right"};

/* What edits put in: as bytes, in a line of a script, and as the text has it. */
static const struct {
    const char *raw, *quoted, *clean;
} inserts[] = {
    {"", "", ""}, {"x", "x", "x"}, {"ab cd ", "ab cd ", "ab cd "}, {"\n", "\\n", "\n"}, {"\t", "\\t", "\t"},
    {"\xe6\xbc\xa2", "\xe6\xbc\xa2", "\xe6\xbc\xa2"}, {"e\xcc\x81", "e\\u0301", "e\xcc\x81"}, {"\r\n", "\\r\\n", "\n"},
    {"a\rb", "a\\rb", "a\nb"}, {"f(a, b) {\n\treturn a;\n}\n", "f(a, b) {\\n\\treturn a;\\n}\\n", "f(a, b) {\n\treturn a;\n}\n"}, {"\"\\", "\\\"\\\\", "\"\\"}, {"\xf0\x9f\x91\xa9", "\\ud83d\\udc69", "\xf0\x9f\x91\xa9"},
};

static uint32_t draw(uint32_t below) {
    state = state * 6364136223846793005u + 1442695040888963407u;
    return (uint32_t)(state >> 33) % below;
}

static void must(bool holds, const char *what) {
    if (holds) return;
    fprintf(stderr, "random: %s\n", what);
    exit(1);
}

/* ---- what is drawn */

static bool is_boundary(uint32_t offset) {
    return offset == length || (offset < length && (text[offset] & 0xc0) != 0x80);
}

/* An offset that mostly is in the text, also within a character. */
static uint32_t draw_offset(void) {
    uint32_t it = draw(64);
    return it == 0 ? UINT32_MAX : it < 4 ? length + it : draw(length + 1);
}

static uint32_t draw_near(uint32_t offset) {
    return draw(32) ? offset + draw(7) : draw_offset();
}

static uint32_t draw_row(void) {
    return draw(32) ? draw(60) : UINT32_MAX - draw(2);
}

/* The ids of marks, of which the last is never used, go up to the greatest numbers. */
static uint32_t id_of(uint32_t mark) {
    return mark == MARKS ? UINT32_MAX : mark * 390451572u;
}

/* ---- the answer */

/* Reads part of the answer, and looks that no byte around it is written. */
static void read_part(uint8_t *out, size_t from, size_t room) {
    out[-1] = out[room] = 0xa5;
    must(displaymap_answer(&d, from, out, room) == answer_length, "the length of the answer");
    must(out[-1] == 0xa5 && out[room] == 0xa5, "answer writes past its room");
}

/* The answer is the same as before. */
static void answer_stays(void) {
    uint8_t part[34];
    size_t from = draw(8) ? draw((uint32_t)answer_length + 1) : SIZE_MAX - draw(2), room = draw(33);
    read_part(part + 1, from, room);
    size_t left = from < answer_length ? answer_length - from : 0;
    must(!memcmp(part + 1, answer + (left ? from : 0), left < room ? left : room), "the last answer isn't kept");
    if (draw(4) == 0) must(displaymap_answer(&d, draw(9), NULL, 0) == answer_length, "answer without room");
}

static void answer_is_new(void) {
    answer_length = displaymap_answer(&d, 0, (uint8_t *)answer, sizeof answer - 1);
    must(answer_length < sizeof answer, "the answer is too long for this program");
    answer[answer_length] = 0;
}

static void answer_is(const char *wanted, size_t size, const char *what) {
    answer_is_new();
    must(answer_length == size && !memcmp(answer, wanted, size), what);
}

/* ---- the script and its output */

__attribute__((format(printf, 2, 3))) static void print_to(FILE *file, const char *form, ...) {
    if (!file) return;
    va_list words;
    va_start(words, form);
    vfprintf(file, form, words);
    va_end(words);
}

/* What the program prints for a refused line. */
static void print_status(uint32_t status) {
    if (status) print_to(output, "! %u\n", status);
    refused += status != 0;
}

/* Does a line of a script, and writes it and what it prints. */
static uint32_t ask_bytes(const char *line, size_t size) {
    uint32_t status = displaymap_line(&d, (const uint8_t *)line, size);
    must(status <= 7, "the status of a line");
    if (status) answer_stays();
    else answer_is_new();
    print_to(script, "%.*s\n", (int)size, line);
    if (!status) print_to(output, "%s", answer);
    print_status(status);
    return status;
}

__attribute__((format(printf, 1, 2))) static uint32_t ask(const char *form, ...) {
    static char line[4096];
    va_list words;
    va_start(words, form);
    int size = vsnprintf(line, sizeof line, form, words);
    va_end(words);
    return ask_bytes(line, (size_t)size);
}

/* Wraps all lines, as a question of a script does before it. */
static void wrap_all(void) {
    bool waits = true;
    must(!displaymap_wrap(&d, UINT32_MAX, &waits) && !waits, "wrap of all lines");
}

/* ---- changes */

static void put_in(uint32_t start, uint32_t end, const char *clean) {
    uint32_t size = (uint32_t)strlen(clean);
    must(length + size < sizeof text, "the text is too long for this program");
    memmove(text + start + size, text + end, length - end);
    memcpy(text + start, clean, size);
    length = length - (end - start) + size;
    for (struct mark *it = marks; it < marks + MARKS; it++) {
        if (it->offset < start || (it->offset == start && !it->right)) continue;
        it->offset = it->offset <= end ? start + size : it->offset + size - (end - start);
    }
}

/* Every mark is where this program has it, and no other is known. */
static void marks_agree(void) {
    for (uint32_t i = 0; i <= MARKS; i++) {
        bool there = i < MARKS && marks[i].there;
        uint32_t at = UNTOUCHED, status = displaymap_mark(&d, id_of(i), &at);
        must(status == (there ? DISPLAYMAP_OK : DISPLAYMAP_UNKNOWN_ID), "the status of mark");
        must(at == (there ? marks[i].offset : UNTOUCHED), "the offset of a mark");
    }
}

/* An edit, by a call or by its line. */
static void edit(void) {
    uint32_t start = draw_offset(), end = draw(3) ? start : draw_near(start), which = draw(sizeof inserts / sizeof *inserts), status;
    if (length > 1200 && draw(4) == 0) start = 0, end = draw_offset(); /* the text grows else without an end */
    bool holds = start <= end && is_boundary(start) && is_boundary(end);
    const char *raw = inserts[which].raw;
    if (draw(2)) {
        status = ask("{\"edit\":[[%u,%u,\"%s\"]]}", start, end, inserts[which].quoted);
    } else {
        status = displaymap_edit(&d, start, end, *raw || draw(2) ? (const uint8_t *)raw : NULL, strlen(raw));
        print_to(script, "{\"edit\":[[%u,%u,\"%s\"]]}\n", start, end, inserts[which].quoted);
        print_status(status);
        answer_stays();
    }
    must(status == (holds ? DISPLAYMAP_OK : DISPLAYMAP_BAD_RANGE), "the status of an edit");
    if (holds) put_in(start, end, inserts[which].clean);
    if (draw(4) == 0) marks_agree();
}

/* An edit of two ranges, which are of the text as it is before both. */
static void edit_twice(void) {
    uint32_t at[4], which[2] = {draw(sizeof inserts / sizeof *inserts), draw(sizeof inserts / sizeof *inserts)};
    bool holds = true;
    at[0] = draw_offset();
    for (int i = 1; i < 4; i++) at[i] = draw_near(at[i - 1]);
    for (int i = 0; i < 4; i++) holds = holds && is_boundary(at[i]) && (i == 0 || at[i - 1] <= at[i]);
    uint32_t status = ask("{\"edit\":[[%u,%u,\"%s\"],[%u,%u,\"%s\"]]}", at[0], at[1], inserts[which[0]].quoted, at[2], at[3],
        inserts[which[1]].quoted);
    must(status == (holds ? DISPLAYMAP_OK : DISPLAYMAP_BAD_RANGE), "the status of an edit of two ranges");
    if (holds) put_in(at[2], at[3], inserts[which[1]].clean), put_in(at[0], at[1], inserts[which[0]].clean);
    marks_agree();
}

/* A fold, an inlay, a block or a setting, with ids and values that may be wrong. */
static void change(void) {
    uint32_t a = draw_offset(), b = draw_near(a), id = draw(12);
    switch (draw(10)) {
    case 0: ask("{\"fold\":[%u,%u,%u]}", id, a, b); break;
    case 1: ask("{\"fold\":[%u,[%u,%u,\"left\"],[%u,%u,\"right\"]]}", id, draw(9), draw(9), draw(9), draw(30)); break;
    case 2: ask("{\"unfold\":%u}", id); break;
    case 3: ask("{\"inlay\":[%u,%u,\"%s\",\"<%u\\t%u>\"]}", id, a, sides[draw(2)], id, b); break;
    case 4: ask("{\"uninlay\":%u}", id); break;
    case 5: ask("{\"block\":[%u,\"%s\",%u,[\"-- %u\",\"\"]]}", id, draw(2) ? "above" : "below", draw_row(), id); break;
    case 6: ask("{\"unblock\":%u}", id); break;
    case 7: ask("{\"width\":%u}", draw(4) ? 8 + draw(60) : draw(3)); break;
    case 8: ask("{\"tab\":%u}", draw(20)); break;
    default: ask("{\"edit\":[[%u,%u,\"a\"],[%u,%u,\"b\"]]}", b + 1, b, a, a); break; /* ranges that aren't in order */
    }
}

/* Lines that ask nothing, or too much. */
static void bad_line(void) {
    static const char *const lines[] = {
        "x", "{", "{}", "[]", "{\"fold\":[1,2]}", "{\"edit\":[[0,1]]}", "{\"rows\":[0,9],\"tab\":4}", "{\"rows\":[-1,2]}",
        "\xff", "{\"tab\":0}", "{\"width\":10001}", "{\"unfold\":4294967296}", "{\"fold\":[99999999999999999999999,0,1]}",
        "{\"inlay\":[77,0,\"left\",\"\"]}", "{\"block\":[77,\"above\",0,[]]}", "{\"block\":[77,\"above\",0,[\"a\\nb\"]]}",
        "{\"peek\":[0]}", "{\"move\":[0,0,0,\"back\"]}", "{\"settle\":false}", "{\"edit\":[[0,0,\"\\ud800\"]]}",
    };
    static char long_inlay[1200] = "{\"inlay\":[77,0,\"left\",\"";
    uint32_t which = draw(sizeof lines / sizeof *lines + 2);
    if (which == 0) {
        must(displaymap_line(&d, NULL, 0) == DISPLAYMAP_NOT_COMMAND, "an empty line");
    } else if (which == 1) {
        memset(long_inlay + 23, 'x', 1025);
        memcpy(long_inlay + 23 + 1025, "\"]}", 3);
        must(ask("%s", long_inlay) == DISPLAYMAP_TOO_LONG, "an inlay that is too long");
    } else {
        must(ask("%s", lines[which - 2]) != DISPLAYMAP_OK, "a line that is wrong");
    }
}

/* Bytes that aren't UTF-8 change nothing. */
static void bad_bytes(void) {
    static const char *const bytes[] = {"\xff", "a\x80", "\xc3", "\xe6\xbc", "\xed\xa0\x80", "\xc0\xaf", "\xf4\x90\x80\x80"};
    uint32_t start = draw_offset(), which = draw(sizeof bytes / sizeof *bytes);
    uint32_t status = displaymap_edit(&d, start, draw_near(start), (const uint8_t *)bytes[which], strlen(bytes[which]));
    must(status == DISPLAYMAP_NOT_UTF8, "an edit that isn't UTF-8");
    must(displaymap_open(&other, (const uint8_t *)bytes[which], strlen(bytes[which])) == DISPLAYMAP_NOT_UTF8 && !other.open,
        "a text that isn't UTF-8");
    answer_stays();
}

/* ---- questions, each with the line that asks the same */

static void show(void) {
    uint32_t offset = draw_offset(), side = draw(2);
    displaymap_place place = {UNTOUCHED, UNTOUCHED};
    uint32_t status = displaymap_show(&d, offset, side, &place);
    must(status == (is_boundary(offset) ? DISPLAYMAP_OK : DISPLAYMAP_BAD_RANGE), "the status of show");
    must(!status || (place.row == UNTOUCHED && place.column == UNTOUCHED), "a refused show wrote a place");
    print_to(script, "{\"display\":[%u,\"%s\"]}\n", offset, sides[side]);
    if (!status) print_to(output, "%u %u\n", place.row, place.column);
    print_status(status);
}

static void clip_and_back(void) {
    uint32_t row = draw_row(), column = draw(16) ? draw(90) : UINT32_MAX, side = draw(2), offset;
    displaymap_place place;
    must(!displaymap_clip(&d, row, column, side, &place), "clip");
    must(!displaymap_back(&d, row, column, side, &offset) && is_boundary(offset), "back");
    print_to(script, "{\"clip\":[%u,%u,\"%s\"]}\n", row, column, sides[side]);
    print_to(output, "%u %u\n", place.row, place.column);
    print_to(script, "{\"buffer\":[%u,%u,\"%s\"]}\n", row, column, sides[side]);
    print_to(output, "%u\n", offset);
}

static void row(void) {
    uint32_t number = draw_row(), kind = UNTOUCHED, count;
    must(!displaymap_row_count(&d, &count) && count > 0, "row_count");
    uint32_t status = displaymap_row(&d, number, &kind);
    must(status == (number < count ? DISPLAYMAP_OK : DISPLAYMAP_NO_ROW), "the status of row");
    must(status ? kind == UNTOUCHED : kind == 't' || kind == 'w' || kind == 'b', "the kind of a row");
    print_to(script, "{\"rows\":[%u,1]}\n", number);
    if (status) answer_stays();
    else answer_is_new();
    if (!status) print_to(output, "%u %c|%s\n", number, (char)kind, answer);
    refused += status != 0;
}

static void rows(void) {
    uint32_t count, first = draw_row(), most = draw(8) ? draw(9) : UINT32_MAX;
    must(!displaymap_row_count(&d, &count), "row_count");
    if (draw(2)) first = count - 1;
    must(!displaymap_rows(&d, first, most), "rows");
    answer_is_new();
    print_to(script, "{\"rows\":[%u,%u]}\n", first, most);
    print_to(output, "%s", answer);
}

/* What a piece of an inlay or a block shows begins so, as far as it goes. */
static bool begins_with(const displaymap_piece *it, const char *shown, const char *form) {
    char wanted[16];
    size_t size = (size_t)snprintf(wanted, sizeof wanted, form, it->id);
    return !memcmp(shown, wanted, it->bytes < size ? it->bytes : size);
}

/* A piece is of this text, of a fold, or of an inlay or a block that this program could have added. */
static void piece_agrees(const displaymap_piece *it, const char *shown) {
    uint32_t size = it->end - it->start;
    switch (it->kind) {
    case DISPLAYMAP_TEXT: must(size == it->bytes && !memcmp(text + it->start, shown, size), "a piece of the text"); break;
    case DISPLAYMAP_TAB: must(size == 1 && text[it->start] == '\t' && it->cells == it->bytes, "a tab"); break;
    case DISPLAYMAP_PLACEHOLDER: must(size && it->cells == 1 && it->bytes == 3 && !memcmp(shown, "\xe2\x8b\xaf", 3), "a placeholder"); break;
    case DISPLAYMAP_INDENT: must(!size && it->cells == it->bytes, "an indent"); break;
    case DISPLAYMAP_INLAY: must(!size && it->cells == it->bytes && (*shown != '<' || begins_with(it, shown, "<%u ")), "an inlay"); break;
    case DISPLAYMAP_BLOCK: must(!size && it->cells == it->bytes && begins_with(it, shown, "-- %u"), "a block"); break;
    default: must(false, "the kind of a piece");
    }
    must(it->kind == DISPLAYMAP_INLAY || it->kind == DISPLAYMAP_BLOCK ? it->id < 12 : it->id == 0, "the id of a piece");
}

/* The texts of a row's pieces, joined, are the row's text. Each piece follows the one before it in the text and in the row,
 * and what has bytes is shown where the cells before it end. */
static void pieces_agree(const displaymap_piece *it, size_t count, uint32_t row, char kind) {
    size_t bytes = 0;
    displaymap_place place = {row, 0};
    for (size_t i = 0; i < count; bytes += it[i].bytes, place.column += it[i].cells, i++) {
        displaymap_place shown;
        must(it[i].start <= it[i].end && it[i].end <= length && it[i].bytes <= answer_length - bytes, "the range of a piece");
        must(it[i].bytes > 0 || kind == 'b', "an empty piece");
        must(i == 0 || it[i].start == it[i - 1].end, "a piece that doesn't begin at the last one's end");
        must(i == 0 || it[i].kind != DISPLAYMAP_TEXT || it[i - 1].kind != DISPLAYMAP_TEXT, "two neighbours of text");
        must((it[i].kind == DISPLAYMAP_BLOCK) == (kind == 'b') && (kind != 'b' || count == 1), "the piece of a block");
        must(it[i].kind != DISPLAYMAP_INDENT || (i == 0 && kind == 'w'), "an indent that isn't the first of a row that goes on");
        piece_agrees(it + i, answer + bytes);
        if (it[i].start == it[i].end) continue;
        must(!displaymap_show(&d, it[i].start, true, &shown) && !memcmp(&shown, &place, sizeof place), "where a piece is shown");
    }
    must(bytes == answer_length, "the texts of the pieces, joined");
}

static bool is_same(const displaymap_piece *a, const displaymap_piece *b) {
    return a->bytes == b->bytes && a->kind == b->kind && a->id == b->id && a->cells == b->cells && a->start == b->start && a->end == b->end;
}

/* The pieces of a row, for which there may be less room. */
static void pieces(void) {
    static displaymap_piece some[16], all[4096];
    uint32_t number = draw_row(), kind = UNTOUCHED;
    size_t room = draw(9), count = UNTOUCHED, most;
    memset(some, 0xa5, sizeof some);
    uint32_t status = displaymap_row(&d, number, &kind);
    if (!status) answer_is_new();
    must(displaymap_pieces(&d, number, room || draw(2) ? some : NULL, room, &count) == status, "the status of pieces");
    answer_stays();
    for (size_t i = 0; i < sizeof *some; i++) must(((uint8_t *)(some + room))[i] == 0xa5, "pieces writes past its room");
    refused += status != 0;
    if (status) {
        must(count == UNTOUCHED && ((uint8_t *)some)[0] == 0xa5, "pieces of no row");
        return;
    }
    must(count < sizeof all / sizeof *all, "too many pieces for this program");
    memset(all, 0xa5, sizeof *all * (count + 1));
    must(!displaymap_pieces(&d, number, all, count + draw(2), &most) && most == count, "pieces");
    answer_is(answer, answer_length, "the text of a row by its pieces");
    for (size_t i = 0; i < sizeof *all; i++) must(((uint8_t *)(all + count))[i] == 0xa5, "pieces writes past the last");
    for (size_t i = 0; i < room && i < count; i++) must(is_same(some + i, all + i), "the first pieces");
    pieces_agree(all, count, number, (char)kind);
}

/* A caret or a selection, which only lines ask. */
static void caret(void) {
    static const char *const motions[6] = {"left", "right", "up", "down", "start", "end"};
    if (draw(2)) ask("{\"move\":[%u,%u,%u,\"%s\"]}", draw_row(), draw(50), draw(50), motions[draw(6)]);
    else ask("{\"select\":[%u,%u,%u,%u]}", draw_row(), draw(50), draw_row(), draw(50));
}

/* Parts of the text, which no line asks: they are compared with this program's own. */
static void slice(void) {
    uint32_t start = draw_offset(), end = draw_near(start), bytes = UNTOUCHED;
    must(!displaymap_text_len(&d, &bytes) && bytes == length, "text_len");
    uint32_t status = displaymap_slice(&d, start, end);
    bool holds = start <= end && is_boundary(start) && is_boundary(end);
    must(status == (holds ? DISPLAYMAP_OK : DISPLAYMAP_BAD_RANGE), "the status of slice");
    if (holds) answer_is(text + start, end - start, "slice");
    else answer_stays();
    refused += status != 0;
}

/* Marks, which no line knows: they too are compared with this program's own. */
static void mark(void) {
    uint32_t i = draw(MARKS), offset = draw_offset(), status;
    bool right = draw(2), there = marks[i].there;
    if (draw(3)) {
        status = displaymap_add_mark(&d, id_of(i), offset, right);
        must(status == (there ? DISPLAYMAP_ID_IN_USE : is_boundary(offset) ? DISPLAYMAP_OK : DISPLAYMAP_BAD_RANGE), "add_mark");
        if (!status) marks[i] = (struct mark){true, right, offset};
    } else {
        status = displaymap_remove_mark(&d, id_of(i));
        must(status == (there ? DISPLAYMAP_OK : DISPLAYMAP_UNKNOWN_ID), "remove_mark");
        marks[i].there = false;
    }
    marks_agree();
    answer_stays();
    refused += status != 0;
}

/* Some runs, or none. A question that isn't a line's meets lines that wait. */
static void wrap_some(void) {
    bool waits;
    uint32_t count = 0, kind;
    displaymap_place place;
    must(!displaymap_wrap(&d, draw(3), &waits), "wrap");
    must(!displaymap_row_count(&d, &count) && !displaymap_row(&d, count - 1, &kind), "the last row");
    answer_is_new();
    must(displaymap_row(&d, count, &kind) == DISPLAYMAP_NO_ROW, "the row past the last");
    must(!displaymap_clip(&d, draw_row(), draw(90), draw(2), &place) && place.row < count, "clip while lines wait");
}

/* ---- the rows that changed */

/* Reads all rows as they are, which become the answer. Each is there as `number kind|text`. */
static void read_rows(struct rows *rows) {
    must(!displaymap_rows(&d, 0, UINT32_MAX), "all rows");
    answer_is_new();
    memcpy(rows->bytes, answer, answer_length + 1);
    rows->count = 0;
    for (const char *at = rows->bytes; *at; at = strchr(at, '\n') + 1) {
        must(rows->count < ROWS, "too many rows for this program");
        rows->starts[rows->count++] = at = strchr(at, ' ') + 1;
    }
}

static bool is_same_row(const char *a, const char *b) {
    return !strncmp(a, b, (size_t)(strchr(a, '\n') + 1 - a));
}

/* The rows before those that changed and the rows after them are as they were, and none changes by asking. At first no row
 * was seen, so all have to be new. */
static void changed_rows(void) {
    displaymap_change it, none;
    struct rows *last = seen;
    read_rows(now);
    must(!displaymap_changed_rows(&d, &it), "changed_rows");
    must(it.from <= it.to && it.to <= last->count && it.from <= now->count, "the rows that changed aren't there");
    uint32_t after = last->count - it.to;
    must(now->count - it.from >= it.count && now->count - it.from - it.count == after, "how many rows changed");
    for (uint32_t i = 0; i < it.from; i++)
        must(is_same_row(last->starts[i], now->starts[i]), "a row before those that changed");
    for (uint32_t i = 1; i <= after; i++)
        must(is_same_row(last->starts[last->count - i], now->starts[now->count - i]), "a row after those that changed");
    answer_stays();
    must(!displaymap_changed_rows(&d, &none) && none.from == none.to && none.count == 0, "rows that change by asking");
    seen = now;
    now = last;
}

/* Asks before a change or some wrapping, and after it. */
static void change_rows(void) {
    changed_rows();
    if (draw(3) == 0) wrap_some();
    else if (draw(2)) edit();
    else change();
    changed_rows();
}

/* ---- handles */

static void closed_handle(void) {
    displaymap closed = {0};
    displaymap_place place = {UNTOUCHED, UNTOUCHED};
    displaymap_change change = {UNTOUCHED, UNTOUCHED, UNTOUCHED}, untouched = change;
    uint32_t number = UNTOUCHED;
    size_t size = UNTOUCHED;
    uint8_t byte = 0xa5;
    bool waits = true;
    must(displaymap_line(&closed, NULL, 0) == DISPLAYMAP_CLOSED, "line of a closed handle");
    must(displaymap_edit(&closed, 0, 0, NULL, 0) == DISPLAYMAP_CLOSED, "edit of a closed handle");
    must(displaymap_wrap(&closed, 1, &waits) == DISPLAYMAP_CLOSED && waits, "wrap of a closed handle");
    must(displaymap_show(&closed, 0, true, &place) == DISPLAYMAP_CLOSED, "show of a closed handle");
    must(displaymap_clip(&closed, 0, 0, true, &place) == DISPLAYMAP_CLOSED, "clip of a closed handle");
    must(displaymap_back(&closed, 0, 0, true, &number) == DISPLAYMAP_CLOSED, "back of a closed handle");
    must(displaymap_row_count(&closed, &number) == DISPLAYMAP_CLOSED, "row_count of a closed handle");
    must(displaymap_text_len(&closed, &number) == DISPLAYMAP_CLOSED, "text_len of a closed handle");
    must(displaymap_slice(&closed, 0, 0) == DISPLAYMAP_CLOSED, "slice of a closed handle");
    must(displaymap_add_mark(&closed, 0, 0, true) == DISPLAYMAP_CLOSED, "add_mark of a closed handle");
    must(displaymap_remove_mark(&closed, 0) == DISPLAYMAP_CLOSED, "remove_mark of a closed handle");
    must(displaymap_mark(&closed, 0, &number) == DISPLAYMAP_CLOSED, "mark of a closed handle");
    must(displaymap_row(&closed, 0, &number) == DISPLAYMAP_CLOSED, "row of a closed handle");
    must(displaymap_rows(&closed, 0, 1) == DISPLAYMAP_CLOSED, "rows of a closed handle");
    must(displaymap_pieces(&closed, 0, NULL, 0, &size) == DISPLAYMAP_CLOSED && size == UNTOUCHED, "pieces of a closed handle");
    must(displaymap_changed_rows(&closed, &change) == DISPLAYMAP_CLOSED, "changed_rows of a closed handle");
    must(!memcmp(&change, &untouched, sizeof change), "changed_rows of a closed handle wrote a value");
    must(displaymap_answer(&closed, 0, &byte, 1) == 0 && byte == 0xa5, "answer of a closed handle");
    must(number == UNTOUCHED && place.row == UNTOUCHED && place.column == UNTOUCHED, "a closed handle wrote a value");
    displaymap_close(&closed);
    must(!closed.open, "a closed handle is open");
}

/* Opens and closes a handle beside the display: on its text, on no bytes, on too many, anew while it is open. */
static void other_handle(void) {
    uint32_t bytes;
    switch (draw(4)) {
    case 0: displaymap_close(&other); break;
    case 1: must(!displaymap_open(&other, NULL, 0), "open of no bytes"); break;
    case 2:
        must(displaymap_open(&other, too_many, sizeof too_many) == DISPLAYMAP_TOO_LONG && !other.open, "open of too many bytes");
        break;
    default:
        must(!displaymap_open(&other, (const uint8_t *)text, length), "open");
        must(!displaymap_text_len(&other, &bytes) && bytes == length, "text_len of another handle");
    }
    answer_stays();
}

static void call(void) {
    uint32_t it = draw(32);
    if (it < 7) edit();
    else if (it < 8) edit_twice();
    else if (it < 13) change();
    else if (it < 14) bad_line();
    else if (it < 15) bad_bytes();
    else if (it < 16) slice();
    else if (it < 17) mark();
    else if (it < 18) wrap_some();
    else if (it < 19) other_handle();
    else if (it < 20) draw(8) ? caret() : closed_handle();
    else if (it < 21) pieces();
    else if (it < 22) draw(2) ? change_rows() : changed_rows();
    else {
        wrap_all();
        if (it < 25) show();
        else if (it < 27) clip_and_back();
        else if (it < 30) row();
        else rows();
    }
}

/* ---- the whole */

static FILE *file_in(const char *folder, const char *name) {
    char path[512];
    snprintf(path, sizeof path, "%s/%s", folder, name);
    FILE *file = fopen(path, "wb");
    must(file != NULL, "a file can't be written");
    return file;
}

/* A line over its limit, once. */
static void long_line(void) {
    size_t size = (1 << 20) + 1;
    char *line = malloc(size);
    must(line != NULL, "no memory");
    memset(line, 'x', size);
    must(ask_bytes(line, size) == DISPLAYMAP_TOO_LONG, "a line that is too long");
    free(line);
}

/* As many marks as there may be, and one more. */
static void most_marks(void) {
    uint32_t at;
    must(!displaymap_open(&other, (const uint8_t *)text, length), "open");
    for (uint32_t id = 0; id < 65536; id++) must(!displaymap_add_mark(&other, id, 0, true), "add_mark of many");
    must(displaymap_add_mark(&other, 65536, 0, true) == DISPLAYMAP_TOO_LONG, "a mark too many");
    must(displaymap_add_mark(&other, 65536, length + 1, true) == DISPLAYMAP_BAD_RANGE, "a mark too many, past the end");
    must(!displaymap_edit(&other, 0, 0, (const uint8_t *)"ab", 2), "an edit that moves many marks");
    must(!displaymap_mark(&other, 65535, &at) && at == 2, "the last of many marks");
    must(!displaymap_remove_mark(&other, 7) && !displaymap_add_mark(&other, 65536, 0, true), "a mark for another");
    displaymap_close(&other);
}

int main(int count, char **words) {
    static const char start[] = "fn main() {\n\tlet total = items.iter().sum();\n\t// \xe6\xbc\xa2\xe5\xad\x97 e\xcc\x81\n}\n";
    uint32_t calls = count > 1 ? (uint32_t)strtoul(words[1], NULL, 10) : 1000;
    state = count > 2 ? strtoull(words[2], NULL, 10) : 1;
    if (count > 3) {
        FILE *opened = file_in(words[3], "text");
        fputs(start, opened);
        fclose(opened);
        script = file_in(words[3], "script");
        output = file_in(words[3], "output");
    }
    put_in(0, 0, start);
    must(!displaymap_open(&d, (const uint8_t *)text, length), "open");
    print_to(script, "{\"script\":2}\n");
    long_line();
    if (!script) most_marks(); /* a run that writes a script may be under valgrind, where this takes long */
    for (uint32_t i = 0; i < calls; i++) call();
    displaymap_close(&d);
    displaymap_close(&other);
    if (script) must(!fclose(script) && !fclose(output), "a file can't be written");
    printf("random: %u calls, %u of them refused\n", calls, refused);
    return 0;
}
