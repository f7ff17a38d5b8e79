/* A pager for the terminal, over displaymap.h: view FILE.
 *   arrows              the cursor              f   folds by indentation at the cursor; again, around that
 *   space, b, page keys a page                  u   unfolds what is folded on the cursor's line
 *   g, G, home, end     the start, the end      w   wraps at the terminal's width, or not at all
 *   12 g, 12 enter      line 12                 q   ends
 *   click, wheel        puts the cursor and says what was clicked; scrolls */
#include "displaymap.h"
#include <errno.h>
#include <signal.h>
#include <stdarg.h>
#include <stdio.h>
#include <stdlib.h>
#include <string.h>
#include <sys/ioctl.h>
#include <sys/select.h>
#include <termios.h>
#include <unistd.h>
#define MOST_BYTES ((size_t)33554432)

/* Keys that aren't one byte. */
enum key { UP = 256, DOWN, RIGHT, LEFT, END, HOME, PAGE_UP, PAGE_DOWN, CLICK, WHEEL_UP, WHEEL_DOWN, NO_KEY };

typedef struct {
    displaymap map;
    const char *name;
    uint8_t *text; /* as the library has it, whose line breaks are LF */
    uint32_t length;
    uint32_t width, height; /* of the rows on the screen; the status line is below them */
    uint32_t wrapped_at;    /* the width that the library has, 0 where it doesn't wrap */
    uint32_t cursor;        /* an offset */
    uint32_t line;          /* the cursor's line on the screen */
    uint32_t number;        /* the digits typed so far */
    uint32_t x, y;          /* the cell that was clicked */
    bool wraps, waits, is_raw;
    char note[128]; /* what was clicked */
    struct termios usual;
    sigset_t usual_signals; /* others come in only while the pager waits for a key */
} pager;

static volatile sig_atomic_t ended; /* a handler of signals reaches nothing but a global */

static void on_signal(int number) {
    if (number != SIGWINCH) ended = 1;
}

static void restore_terminal(pager *p) {
    if (!p->is_raw) return;
    fputs("\x1b[?1006l\x1b[?1000l\x1b[?7h\x1b[?25h\x1b[?1049l", stdout);
    fflush(stdout);
    tcsetattr(STDIN_FILENO, TCSAFLUSH, &p->usual);
}

/* Ends the pager, and says why. */
__attribute__((noreturn, format(printf, 2, 3))) static void fail(pager *p, const char *form, ...) {
    va_list words;
    restore_terminal(p);
    fputs("view: ", stderr);
    va_start(words, form);
    vfprintf(stderr, form, words);
    va_end(words);
    fputc('\n', stderr);
    exit(1);
}

/* Keys come one by one and unprinted, clicks come too, rows that are too long are cut, and the old screen is kept. */
static void take_terminal(pager *p) {
    static const int numbers[] = {SIGWINCH, SIGTERM, SIGHUP};
    struct sigaction action = {.sa_handler = on_signal};
    sigset_t held;
    if (!isatty(STDOUT_FILENO) || tcgetattr(STDIN_FILENO, &p->usual)) fail(p, "input and output have to be a terminal");
    struct termios raw = p->usual;
    raw.c_iflag &= (tcflag_t) ~(ICRNL | IXON);
    raw.c_lflag &= (tcflag_t) ~(ICANON | ECHO | ISIG | IEXTEN);
    if (tcsetattr(STDIN_FILENO, TCSAFLUSH, &raw)) fail(p, "the terminal can't be set up: %s", strerror(errno));
    p->is_raw = true;
    sigemptyset(&held);
    for (int i = 0; i < 3; i++) {
        sigaddset(&held, numbers[i]);
        sigaction(numbers[i], &action, NULL);
    }
    sigprocmask(SIG_BLOCK, &held, &p->usual_signals);
    fputs("\x1b[?1049h\x1b[?7l\x1b[?1000h\x1b[?1006h", stdout);
}

/* The next byte that is typed; NO_KEY if none comes in that time, or a signal does. Below 0 is without an end. */
static int next_byte(pager *p, long milliseconds) {
    struct timespec time = {.tv_nsec = milliseconds * 1000000};
    uint8_t byte;
    fd_set input;
    FD_ZERO(&input);
    FD_SET(STDIN_FILENO, &input);
    int ready = pselect(STDIN_FILENO + 1, &input, NULL, NULL, milliseconds < 0 ? NULL : &time, &p->usual_signals);
    if (ended) return 'q';
    return ready <= 0 ? NO_KEY : read(STDIN_FILENO, &byte, 1) == 1 ? byte : 'q';
}

/* The key of an escape code whose first byte was read. A click is `<button;column;row`, and M where the button goes down. */
static int escaped_key(pager *p) {
    char words[32] = "";
    size_t count = 0;
    unsigned button;
    int byte = next_byte(p, 50);
    if (byte != '[' && byte != 'O') return NO_KEY;
    for (byte = next_byte(p, 50); byte < NO_KEY && (byte < '@' || byte > '~'); byte = next_byte(p, 50))
        if (count < sizeof words - 1) words[count++] = (char)byte;
    switch (byte) {
    case 'A': case 'B': case 'C': case 'D': return UP + byte - 'A';
    case 'F': case 'H': return byte == 'F' ? END : HOME;
    case '~': return *words == '1' ? HOME : *words == '4' ? END : *words == '5' ? PAGE_UP : *words == '6' ? PAGE_DOWN : NO_KEY;
    case 'M':
        if (sscanf(words, "<%u;%u;%u", &button, &p->x, &p->y) != 3 || p->x-- == 0 || p->y-- == 0) return NO_KEY;
        return button == 0 ? CLICK : button == 64 ? WHEEL_UP : button == 65 ? WHEEL_DOWN : NO_KEY;
    default: return NO_KEY;
    }
}

static void must(pager *p, uint32_t status) {
    if (status == DISPLAYMAP_NO_MEMORY) fail(p, "out of memory");
    if (status != DISPLAYMAP_OK) fail(p, "a call failed with status %u", status);
}

/* Does a line of a script. Lines of the text may wait to be wrapped then. */
__attribute__((format(printf, 2, 3))) static uint32_t ask(pager *p, const char *form, ...) {
    char line[64];
    va_list words;
    va_start(words, form);
    int length = vsnprintf(line, sizeof line, form, words);
    va_end(words);
    p->waits = true;
    return displaymap_line(&p->map, (const uint8_t *)line, (size_t)length);
}

static uint32_t count_rows(pager *p) {
    uint32_t count;
    must(p, displaymap_row_count(&p->map, &count));
    return count;
}

static displaymap_place shown(pager *p, uint32_t offset) {
    displaymap_place place;
    must(p, displaymap_show(&p->map, offset, false, &place));
    return place;
}

static displaymap_place nearest(pager *p, uint32_t row, uint32_t column, bool right) {
    displaymap_place place;
    must(p, displaymap_clip(&p->map, row, column, right, &place));
    return place;
}

static uint32_t offset_at(pager *p, displaymap_place place) {
    uint32_t offset;
    must(p, displaymap_back(&p->map, place.row, place.column, false, &offset));
    return offset;
}

/* The last answer, on the heap. */
static uint8_t *answer(pager *p, size_t *length) {
    *length = displaymap_answer(&p->map, 0, NULL, 0);
    uint8_t *bytes = malloc(*length + 1);
    if (!bytes) fail(p, "out of memory");
    displaymap_answer(&p->map, 0, bytes, *length);
    return bytes;
}

static uint8_t *read_file(pager *p, size_t *length) {
    FILE *file = fopen(p->name, "rb");
    uint8_t *bytes = malloc(MOST_BYTES + 1);
    if (!file) fail(p, "%s: %s", p->name, strerror(errno));
    if (!bytes) fail(p, "out of memory");
    *length = fread(bytes, 1, MOST_BYTES + 1, file);
    if (ferror(file)) fail(p, "%s: %s", p->name, strerror(errno));
    if (*length > MOST_BYTES) fail(p, "%s: longer than %zu bytes", p->name, MOST_BYTES);
    fclose(file);
    return bytes;
}

/* How many bytes the character here has; 0 where there is none. */
static size_t character(const uint8_t *text, size_t left) {
    uint8_t b = *text, least = b == 0xe0 ? 0xa0 : b == 0xf0 ? 0x90 : 0x80, most = b == 0xed ? 0x9f : b == 0xf4 ? 0x8f : 0xbf;
    size_t size = b < 0x80 ? 1 : b < 0xc2 || b > 0xf4 ? 0 : b < 0xe0 ? 2 : b < 0xf0 ? 3 : 4;
    if (size > left || (size > 1 && (text[1] < least || text[1] > most))) return 0;
    for (size_t i = 2; i < size; i++) if (text[i] < 0x80 || text[i] > 0xbf) return 0;
    return size;
}

static void open_file(pager *p) {
    size_t length, at = 0, line = 1;
    uint8_t *bytes = read_file(p, &length);
    uint32_t status = displaymap_open(&p->map, bytes, length);
    if (status == DISPLAYMAP_NOT_UTF8) {
        for (size_t size; (size = character(bytes + at, length - at)) > 0; at += size) line += bytes[at] == '\n';
        fail(p, "%s: line %zu: no character of UTF-8 begins at byte %zu, which is %02x", p->name, line, at, bytes[at]);
    }
    must(p, status);
    free(bytes);
    must(p, displaymap_text_len(&p->map, &p->length));
    must(p, displaymap_slice(&p->map, 0, p->length));
    p->text = answer(p, &length);
}

static uint32_t line_start(const pager *p, uint32_t offset) {
    while (offset > 0 && p->text[offset - 1] != '\n') offset--;
    return offset;
}

static uint32_t line_end(const pager *p, uint32_t offset) {
    while (offset < p->length && p->text[offset] != '\n') offset++;
    return offset;
}

/* The number of an offset's line, from 1 on. */
static uint32_t line_number(const pager *p, uint32_t offset) {
    uint32_t number = 1;
    for (uint32_t at = 0; at < offset; at++) number += p->text[at] == '\n';
    return number;
}

/* Where the line of this number starts, or the last. */
static uint32_t start_of_line(const pager *p, uint32_t number) {
    uint32_t start = 0;
    for (uint32_t end; number > 1 && (end = line_end(p, start)) < p->length; number--) start = end + 1;
    return start;
}

/* The cells by which a line is indented; those of a blank line are more than those of any other. */
static uint32_t indent(const pager *p, uint32_t at) {
    uint32_t cells = 0;
    for (; at < p->length && (p->text[at] == ' ' || p->text[at] == '\t'); at++)
        cells += p->text[at] == ' ' ? 1 : 4 - cells % 4;
    return at == p->length || p->text[at] == '\n' ? UINT32_MAX : cells;
}

/* The end of the last of the lines after this one that are indented deeper, or of this one. */
static uint32_t end_of_deeper(const pager *p, uint32_t start) {
    uint32_t least = indent(p, start), end = line_end(p, start), last = end;
    for (uint32_t cells; end < p->length && (cells = indent(p, end + 1)) > least;) {
        end = line_end(p, end + 1);
        if (cells != UINT32_MAX) last = end;
    }
    return last;
}

/* Where the line starts at which the cursor's row begins: the row may show the end of a fold too. */
static uint32_t line_of_cursor(pager *p) {
    return line_start(p, offset_at(p, nearest(p, shown(p, p->cursor).row, 0, true)));
}

/* Folds the deeper lines after the cursor's, or else after the line around it. A fold's id is the offset where it begins. */
static void fold(pager *p) {
    for (uint32_t start = line_of_cursor(p);;) {
        uint32_t from = line_end(p, start), to = end_of_deeper(p, start), least = indent(p, start);
        if (to > from && ask(p, "{\"fold\":[%u,%u,%u]}", from, from, to) != DISPLAYMAP_ID_IN_USE) break;
        while (start > 0 && indent(p, start) >= least) start = line_start(p, start - 1);
        if (indent(p, start) >= least) return;
    }
    p->cursor = offset_at(p, shown(p, p->cursor));
}

static uint32_t clamp(int64_t number, uint32_t last) {
    return number < 0 ? 0 : number > last ? last : (uint32_t)number;
}

/* Puts the cursor to a place, as many lines further on the screen as it is rows further. */
static void go_to(pager *p, displaymap_place place) {
    uint32_t old = shown(p, p->cursor).row;
    p->cursor = offset_at(p, place);
    p->line = clamp((int64_t)p->line + place.row - old, p->height - 1);
}

/* The place in a row that is nearest before a column, or the row's first: one that goes on may begin with an indent. */
static displaymap_place in_row(pager *p, uint32_t row, uint32_t column) {
    displaymap_place place = nearest(p, row, column, false);
    return place.row == row ? place : nearest(p, row, column, true);
}

static void move_rows(pager *p, int64_t rows) {
    displaymap_place at = shown(p, p->cursor);
    go_to(p, in_row(p, clamp(at.row + rows, count_rows(p) - 1), at.column));
}

static void move_cells(pager *p, bool right) {
    displaymap_place at = shown(p, p->cursor);
    if (right || at.column > 0) go_to(p, nearest(p, at.row, right ? at.column + 1 : at.column - 1, right));
    else if (at.row > 0) go_to(p, nearest(p, at.row - 1, UINT32_MAX, false));
}

/* Scrolls. The cursor goes along only where it would leave the screen. */
static void scroll(pager *p, int64_t rows) {
    int64_t line = p->line - rows;
    uint32_t held = clamp(line, p->height - 1);
    if (held != line) move_rows(p, held - line);
    p->line = held;
}

/* Puts the cursor where it was clicked, and says what is there: the bytes up to the next place. */
static void click(pager *p) {
    uint32_t row = shown(p, p->cursor).row - p->line + p->y;
    if (p->y >= p->height || row >= count_rows(p)) return;
    displaymap_place place = in_row(p, row, p->x), next = nearest(p, place.row, place.column + 1, true);
    go_to(p, place);
    uint32_t start = p->cursor, end = offset_at(p, next), size = end - start;
    if (next.row != place.row || end <= start) snprintf(p->note, sizeof p->note, "a row's end");
    else if (memchr(p->text + start, '\n', size)) snprintf(p->note, sizeof p->note, "a fold, %u to %u", start, end);
    else if (p->text[start] == '\t') snprintf(p->note, sizeof p->note, "a tab of %u cells", next.column - place.column);
    else snprintf(p->note, sizeof p->note, "%.*s, %u to %u", size < 32 ? (int)size : 0, p->text + start, start, end);
}

/* Prints text, with a `?` for each character that a terminal may take as a command. */
static void print_plain(const uint8_t *text, size_t length) {
    for (size_t i = 0; i < length; i++) {
        bool is_long = text[i] == 0xc2 && i + 1 < length && text[i + 1] < 0xa0;
        putchar(text[i] < 0x20 || text[i] == 0x7f || is_long ? '?' : text[i]);
        i += is_long;
    }
}

/* The rows from number `top` on, which are lines `number kind|text` of an answer. One that is cut ends with `>`. */
static void draw_rows(pager *p, uint32_t top) {
    size_t length;
    must(p, displaymap_rows(&p->map, top, p->height));
    uint8_t *rows = answer(p, &length), *at = rows, *end = rows + length;
    for (uint32_t line = 0; line < p->height; line++) {
        printf("\x1b[?25l\x1b[%u;1H\x1b[2K", line + 1);
        if (at == end) continue;
        uint8_t *text = (uint8_t *)memchr(at, '|', (size_t)(end - at)) + 1;
        uint8_t *feed = memchr(text, '\n', (size_t)(end - text));
        at = feed + 1;
        while (feed > text && feed[-1] == ' ') feed--; /* blanks may reach past the width */
        print_plain(text, (size_t)(feed - text));
        if (!p->wraps && nearest(p, top + line, UINT32_MAX, false).column > p->width) printf("\x1b[%u;%uH>", line + 1, p->width);
    }
    free(rows);
}

static void draw(pager *p) {
    char status[512];
    displaymap_place at = shown(p, p->cursor);
    p->line = clamp(p->line, at.row < p->height ? at.row : p->height - 1);
    draw_rows(p, at.row - p->line);
    int size = snprintf(status, sizeof status, "line %u  byte %u  row %u of %u  %s%s%s%.0u%s%s  %s",
        line_number(p, p->cursor), p->cursor, at.row + 1, count_rows(p), p->wraps ? "wrapped" : "not wrapped",
        p->waits ? ".." : "", p->number ? "  to line " : "", p->number, p->note[0] ? "  clicked " : "", p->note, p->name);
    printf("\x1b[%u;1H\x1b[7m\x1b[2K", p->height + 1);
    print_plain((const uint8_t *)status, clamp(size, p->width < sizeof status ? p->width : sizeof status - 1));
    printf("\x1b[m\x1b[%u;%uH\x1b[?25h", p->line + 1, clamp(at.column, p->width - 1) + 1);
    fflush(stdout);
}

/* Takes over the terminal's size, and whether rows are wrapped at it. */
static void fit(pager *p) {
    struct winsize size = {0};
    ioctl(STDOUT_FILENO, TIOCGWINSZ, &size);
    p->width = size.ws_col < 2 ? 80 : clamp(size.ws_col, 10000);
    p->height = size.ws_row < 2 ? 1 : size.ws_row - 1u;
    uint32_t wanted = p->wraps ? p->width : 0;
    if (wanted != p->wrapped_at) must(p, ask(p, "{\"width\":%u}", wanted));
    p->wrapped_at = wanted;
}

/* Does what a key asks, and returns whether the pager goes on. */
static bool act(pager *p, int key) {
    uint32_t number = p->number;
    if (key == NO_KEY) return true;
    p->number = key >= '0' && key <= '9' ? number % 100000000 * 10 + (uint32_t)(key - '0') : 0;
    p->note[0] = 0;
    switch (key) {
    case 'q': case 3: return false;
    case UP: case DOWN: move_rows(p, key == UP ? -1 : 1); break;
    case LEFT: case RIGHT: move_cells(p, key == RIGHT); break;
    case PAGE_UP: case 'b': scroll(p, -(int64_t)p->height); break;
    case PAGE_DOWN: case ' ': scroll(p, p->height); break;
    case WHEEL_UP: case WHEEL_DOWN: scroll(p, key == WHEEL_UP ? -3 : 3); break;
    case HOME: case 'g': case '\r': go_to(p, shown(p, start_of_line(p, number))); break;
    case END: case 'G': go_to(p, shown(p, p->length)); break;
    case CLICK: click(p); break;
    case 'f': fold(p); break;
    case 'u': ask(p, "{\"unfold\":%u}", line_end(p, line_of_cursor(p))); break;
    case 'w': p->wraps = !p->wraps; break;
    }
    return true;
}

int main(int count, char **words) {
    pager p = {.wraps = true, .wrapped_at = 80, .name = words[count - 1]};
    if (count != 2) fail(&p, "it takes one word, the name of a file");
    open_file(&p);
    take_terminal(&p);
    int key;
    do {
        fit(&p);
        draw(&p);
        key = next_byte(&p, p.waits ? 0 : -1);
        if (key == NO_KEY && p.waits) must(&p, displaymap_wrap(&p.map, 64, &p.waits));
    } while (act(&p, key == 27 ? escaped_key(&p) : key));
    restore_terminal(&p);
    displaymap_close(&p.map);
    free(p.text);
    return 0;
}
