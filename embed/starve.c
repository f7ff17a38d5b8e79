/* Has each allocation of some calls fail in turn, or each STEP-th, and repeats the call that says so: starve [STEP]. The rows
 * at the end, which of them changed, and the offset of a mark, have to be those of a run in which none fails. It is linked
 * with --wrap=malloc and --wrap=realloc. */
#include "displaymap.h"
#include <stdio.h>
#include <stdlib.h>
#include <string.h>

void *__real_malloc(size_t size);
void *__real_realloc(void *old, size_t size);
void *__wrap_malloc(size_t size);
void *__wrap_realloc(void *old, size_t size);

static long left; /* how many allocations succeed before one fails; below 0 none fails */
static long failed;

static bool fails(void) {
    if (left < 0 || left-- > 0) return false;
    failed++;
    return true;
}

void *__wrap_malloc(size_t size) { return fails() ? NULL : __real_malloc(size); }
void *__wrap_realloc(void *old, size_t size) { return fails() ? NULL : __real_realloc(old, size); }

static displaymap d;
static char rows[1 << 16], wanted[1 << 16];
static displaymap_change change, wanted_change;

/* The calls, by number. */
static uint32_t call(int number) {
    static const char text[] = "fn main() {\n\tlet total = items.iter().sum();\n\tprintln!(\"{total}\");\n}\n";
    static const char *lines[] = {"{\"width\":24}", "{\"inlay\":[1,22,\"right\",\": u32\"]}", "{\"fold\":[1,11,20]}",
                                  "{\"move\":[0,3,3,\"down\"]}", "{\"select\":[0,3,2,4]}", "{\"rows\":[0,9]}"};
    static displaymap_piece pieces[9];
    size_t pieces_count;
    bool waits;
    switch (number) {
    case 0: return displaymap_open(&d, (const uint8_t *)text, sizeof text - 1);
    case 1: case 12: return displaymap_changed_rows(&d, &change);
    case 2: case 3: case 4: return displaymap_line(&d, (const uint8_t *)lines[number - 2], strlen(lines[number - 2]));
    case 5: return displaymap_wrap(&d, UINT32_MAX, &waits);
    case 6: return displaymap_add_mark(&d, 1, 44, true);
    case 7: return displaymap_add_mark(&d, 2, 5, true);
    case 8: return displaymap_edit(&d, 3, 7, (const uint8_t *)"run", 3);
    case 9: return displaymap_remove_mark(&d, 2);
    case 10: return displaymap_slice(&d, 3, 43);
    case 11: return displaymap_pieces(&d, 1, pieces, 9, &pieces_count);
    default: return displaymap_line(&d, (const uint8_t *)lines[number - 10], strlen(lines[number - 10]));
    }
}

/* Makes all calls, where the allocation of this number fails, and keeps the rows. */
static bool played(long number) {
    left = number;
    failed = 0;
    for (int i = 0; i < 16; i++) {
        uint32_t status = call(i);
        if (status == DISPLAYMAP_NO_MEMORY && failed == 1) status = call(i);
        if (status) {
            fprintf(stderr, "starve: allocation %ld, call %d: status %u\n", number, i, status);
            exit(1);
        }
    }
    uint32_t offset = 0;
    size_t length = displaymap_answer(&d, 0, (uint8_t *)rows, sizeof rows - 1);
    rows[length] = 0;
    if (displaymap_mark(&d, 1, &offset) || offset != 43) {
        fprintf(stderr, "starve: allocation %ld: the mark is at %u\n", number, offset);
        exit(1);
    }
    displaymap_close(&d);
    return failed == 1;
}

int main(int count, char **words) {
    long number = 0, step = count > 1 ? atol(words[1]) : 1, runs = 0;
    if (step < 1) return 2;
    played(-1);
    strcpy(wanted, rows);
    wanted_change = change;
    while (played(number)) {
        if (strcmp(rows, wanted) || memcmp(&change, &wanted_change, sizeof change)) {
            fprintf(stderr, "starve: allocation %ld: other rows\n%s", number, rows);
            return 1;
        }
        number += step;
        runs++;
    }
    printf("starve: %ld allocations failed, one in each run\n", runs);
    return 0;
}
