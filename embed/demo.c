/* Opens a text, adds an inlay, a block, a fold and a mark, edits, and prints rows and which of them changed. */
#include "displaymap.h"
#include <stdio.h>
#include <stdlib.h>
#include <string.h>

static void must(uint32_t status, const char *what) {
    if (status != DISPLAYMAP_OK) {
        fprintf(stderr, "%s: status %u\n", what, status);
        exit(1);
    }
}

static void ask(displaymap *d, const char *line) {
    must(displaymap_line(d, (const uint8_t *)line, strlen(line)), line);
}

/* The answer is copied out in parts, so no room is too small for it. */
static void print_answer(displaymap *d) {
    uint8_t part[64];
    size_t length = displaymap_answer(d, 0, NULL, 0);
    for (size_t at = 0; at < length; at += sizeof part) {
        displaymap_answer(d, at, part, sizeof part);
        fwrite(part, 1, length - at < sizeof part ? length - at : sizeof part, stdout);
    }
}

int main(void) {
    const char *text = "fn main() {\n\tlet total = items.iter().sum();\n\tprintln!(\"{total}\");\n}\n";
    displaymap d = {0};
    displaymap_place place;
    displaymap_change change;
    uint32_t count, kind, offset, status;
    bool waits;
    must(displaymap_open(&d, (const uint8_t *)text, strlen(text)), "open");
    ask(&d, "{\"width\":24}");
    ask(&d, "{\"inlay\":[1,22,\"right\",\": u32\"]}");
    ask(&d, "{\"block\":[1,\"above\",2,[\"-- prints it\"]]}");
    must(displaymap_wrap(&d, UINT32_MAX, &waits), "wrap");
    must(displaymap_rows(&d, 0, 9), "rows");
    print_answer(&d);
    must(displaymap_changed_rows(&d, &change), "changed_rows");
    printf("at first %u rows make place for %u\n", change.to - change.from, change.count);
    must(displaymap_show(&d, 25, false, &place), "show");
    printf("byte 25 is shown in row %u, column %u\n", place.row, place.column);
    ask(&d, "{\"fold\":[1,11,67]}");
    must(displaymap_add_mark(&d, 1, 25, false), "add_mark");
    must(displaymap_edit(&d, 3, 7, (const uint8_t *)"run", 3), "edit");
    must(displaymap_mark(&d, 1, &offset), "mark");
    printf("the mark at byte 25 is now at byte %u\n", offset);
    must(displaymap_wrap(&d, UINT32_MAX, &waits), "wrap");
    must(displaymap_changed_rows(&d, &change), "changed_rows");
    printf("then rows %u to %u make place for %u\n", change.from, change.to, change.count);
    must(displaymap_row_count(&d, &count), "row_count");
    for (uint32_t row = 0; row < count; row++) {
        must(displaymap_row(&d, row, &kind), "row");
        printf("row %u is a %c: ", row, (char)kind);
        print_answer(&d);
        printf("\n");
    }
    must(displaymap_back(&d, 1, 11, true, &offset), "back");
    printf("after the fold comes byte %u\n", offset);
    status = displaymap_line(&d, (const uint8_t *)"{\"unfold\":7}", 12);
    printf("no fold has the id 7: status %u\n", status);
    displaymap_close(&d);
    printf("closed: status %u\n", displaymap_row(&d, 0, &kind));
    return 0;
}
