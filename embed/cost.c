/* What calls cost: cost BYTES [WIDTH]. Each figure is the mean of some calls, in processor time. A screen has 50 rows.
 *
 * `cost BYTES WIDTH LETTERS` types so many letters and does nothing else. It prints how many bytes all screens have, as
 * crates/bench_session does; bench/session times both. */
#include "displaymap.h"
#include <stdarg.h>
#include <stdio.h>
#include <stdlib.h>
#include <string.h>
#include <time.h>

#define MARKS 1000

static displaymap d;
static uint32_t middle; /* of the text, where calls edit and look */
static int calls;       /* of the slower kind */
static double begun;
static bool only_types;

static double now(void) {
    struct timespec t;
    clock_gettime(CLOCK_PROCESS_CPUTIME_ID, &t);
    return t.tv_sec * 1e6 + t.tv_nsec / 1e3;
}

static void print_mean(const char *what, int count) {
    if (only_types) return;
    double each = (now() - begun) / count;
    if (each < 10) printf("%-28s %10.1f ns\n", what, each * 1e3);
    else printf("%-28s %10.1f us\n", what, each);
    begun = now();
}

static void must(uint32_t status) {
    if (!status) return;
    fprintf(stderr, "cost: status %u\n", status);
    exit(1);
}

__attribute__((format(printf, 1, 2))) static void ask(const char *form, ...) {
    char line[200];
    va_list words;
    va_start(words, form);
    int size = vsnprintf(line, sizeof line, form, words);
    va_end(words);
    must(displaymap_line(&d, (uint8_t *)line, (size_t)size));
}

static void put_letter(void) { must(displaymap_edit(&d, middle, middle, (const uint8_t *)"x", 1)); }

static void wrap_all(void) {
    bool waits;
    must(displaymap_wrap(&d, UINT32_MAX, &waits));
}

/* Puts a letter in and reads the screen at it, as a host does at a key. Returns how many bytes it has. */
static size_t type_letter(void) {
    static uint8_t screen[1 << 20];
    displaymap_place place;
    put_letter();
    wrap_all();
    must(displaymap_show(&d, middle, true, &place));
    must(displaymap_rows(&d, place.row < 25 ? 0 : place.row - 25, 50));
    size_t length = displaymap_answer(&d, 0, screen, sizeof screen);
    if (length > sizeof screen) must(1);
    return length;
}

static void type_letters(int letters) {
    size_t bytes = 0;
    for (int i = 0; i < letters; i++) bytes += type_letter();
    printf("%zu\n", bytes);
}

static void edits(void) {
    for (int i = 0; i < calls; i++) ask("{\"edit\":[[%u,%u,\"x\"]]}", middle, middle);
    print_mean("edit by a line", calls);
    for (int i = 0; i < calls; i++) put_letter();
    print_mean("edit", calls);
    wrap_all();
    print_mean("wrap of one line", 1);
    for (int i = 0; i < calls; i++) type_letter();
    print_mean("a letter and its screen", calls);
}

static void reading(void) {
    static displaymap_piece some[256];
    uint32_t rows, kind, offset;
    size_t count;
    displaymap_place place;
    for (int i = 0; i < 100 * calls; i++) must(displaymap_row_count(&d, &rows));
    print_mean("row_count", 100 * calls);
    for (int i = 0; i < calls; i++) must(displaymap_row(&d, rows / 2, &kind));
    print_mean("row", calls);
    for (int i = 0; i < calls; i++) must(displaymap_rows(&d, rows / 2, 50));
    print_mean("50 rows", calls);
    for (int i = 0; i < calls; i++) ask("{\"rows\":[%u,50]}", rows / 2);
    print_mean("50 rows by a line", calls);
    for (int i = 0; i < calls; i++) must(displaymap_pieces(&d, rows / 2, some, 256, &count));
    print_mean("pieces of a row", calls);
    for (int i = 0; i < calls; i++) must(displaymap_show(&d, middle, true, &place));
    print_mean("show", calls);
    for (int i = 0; i < calls; i++) must(displaymap_clip(&d, place.row, place.column, true, &place));
    print_mean("clip", calls);
    for (int i = 0; i < calls; i++) must(displaymap_back(&d, place.row, place.column, true, &offset));
    print_mean("back", calls);
}

/* Marks at every so many bytes, which an edit in the middle moves by half. */
static void marks(void) {
    uint32_t offset, bytes;
    must(displaymap_text_len(&d, &bytes));
    begun = now();
    for (uint32_t id = 0; id < MARKS; id++) must(displaymap_add_mark(&d, id, (uint32_t)((uint64_t)bytes * id / MARKS), false));
    print_mean("add_mark", MARKS);
    for (uint32_t id = 0; id < MARKS; id++) must(displaymap_mark(&d, id, &offset));
    print_mean("mark", MARKS);
    for (int i = 0; i < calls; i++) put_letter();
    print_mean("edit that moves 500 marks", calls);
    for (uint32_t id = 0; id < MARKS; id++) must(displaymap_remove_mark(&d, id));
    print_mean("remove_mark", MARKS);
}

static void letters_and_wrap(const char *what) {
    for (int i = 0; i < calls; i++) {
        put_letter();
        wrap_all();
    }
    print_mean(what, calls);
}

/* What an edit and its wrapping cost before it was asked which rows changed, and from then on. */
static void changes(void) {
    displaymap_change change;
    letters_and_wrap("edit and wrap");
    must(displaymap_changed_rows(&d, &change));
    letters_and_wrap("edit and wrap, once asked");
    for (int i = 0; i < 100 * calls; i++) must(displaymap_changed_rows(&d, &change));
    print_mean("changed_rows", 100 * calls);
}

static void time_calls(void) {
    edits();
    reading();
    marks();
    changes();
    for (int i = 0; i < 1000000; i++) displaymap_answer(&d, 0, NULL, 0);
    print_mean("a call that does nothing", 1000000);
}

int main(int count, char **words) {
    static const char line[] = "\tlet total = items.iter().map(|it| it.price * it.count).sum::<u64>(); // what all of them cost together\n";
    size_t size = count > 1 ? strtoul(words[1], NULL, 10) : 1000000;
    uint8_t *text = malloc(size + 1);
    if (!text) return 1;
    only_types = count > 3;
    middle = (uint32_t)(size / 2);
    calls = size > 2000000 ? 5 : 50;
    for (size_t at = 0; at < size; at++) text[at] = (uint8_t)line[at % (sizeof line - 1)];
    begun = now();
    must(displaymap_open(&d, text, size));
    print_mean("open", 1);
    ask("{\"width\":%u}", count > 2 ? (unsigned)atoi(words[2]) : 80);
    print_mean("width", 1);
    wrap_all();
    print_mean("wrap of all lines", 1);
    if (only_types) type_letters(atoi(words[3]));
    else time_calls();
    displaymap_close(&d);
    free(text);
    return 0;
}
