/* displaymap.h: the display map of a text editor, as calls from C and C++.
 *
 * A text under folds, inlays, blocks, tabs and a width is shown as rows of cells. These calls change it, read its rows, and
 * say which offset of the text is shown where. The calls are proved; this file and the programs that call are not.
 *
 * Units    Offsets and lengths count bytes. Offsets are those of the text after each CR LF and each lone CR became one LF.
 *          Rows count from 0 and columns count cells from 0. `right` is the bias: false is left, true is right.
 * Handles  A `displaymap` is two words in the caller's memory. Zero it before its first use: `displaymap d = {0};`. It is
 *          closed then. Never copy or write it while it is open, and close it before its memory is given up. What it holds
 *          lies on the heap of malloc, realloc and free.
 * Memory   What a parameter points to is the caller's, and no call keeps it. A slice is a pointer and a count; NULL with 0
 *          is an empty one. No other pointer may be NULL. No two parameters may overlap.
 * Errors   A call returns a status. Where it isn't DISPLAYMAP_OK, nothing is written through a pointer but to the handle,
 *          the display is as it was, and the last answer is kept. Lines may have been wrapped all the same.
 * Threads  No call starts a thread, waits, prints or aborts. Use a handle on the thread that opened it. Handles are
 *          independent of each other. No call may be made from a signal handler.
 * Stack    Calls ran in 64 KiB of stack. No proof bounds it.
 */
#ifndef DISPLAYMAP_H
#define DISPLAYMAP_H

#include <stdbool.h>
#include <stddef.h>
#include <stdint.h>

#ifdef __cplusplus
extern "C" {
#endif

typedef struct displaymap {
    bool open;
    void *at;
} displaymap;

typedef struct displaymap_place {
    uint32_t row;
    uint32_t column;
} displaymap_place;

/* What a piece of a row comes from. */
enum displaymap_kind {
    DISPLAYMAP_TEXT = 0,        /* bytes of the text without a tab */
    DISPLAYMAP_TAB = 1,         /* one tab of the text */
    DISPLAYMAP_INLAY = 2,       /* part of an inlay; a tab in it too */
    DISPLAYMAP_PLACEHOLDER = 3, /* what is shown of a fold, or of folds that are joined */
    DISPLAYMAP_BLOCK = 4,       /* a line of a block */
    DISPLAYMAP_INDENT = 5       /* the spaces before a row that goes on with its line */
};

/* A piece of a row. Its text is the next `bytes` bytes of the row's, in which a tab is as many spaces as it has cells; in a
 * block's line it is as it was given. */
typedef struct displaymap_piece {
    size_t bytes;
    uint32_t kind;  /* one of displaymap_kind */
    uint32_t id;    /* of the inlay or the block, else 0 */
    uint32_t cells;
    uint32_t start; /* the offsets of the text from which it goes and to which: one offset twice for an inlay and a block, and */
    uint32_t end;   /* for an indent that of the piece after it; of a placeholder all that is folded */
} displaymap_piece;

/* The rows from number `from` up to `to`, without the latter, made place for `count` others, which begin at `from` too. Where
 * `from` is `to` and `count` is 0, no row changed. */
typedef struct displaymap_change {
    uint32_t from;
    uint32_t to;
    uint32_t count;
} displaymap_change;

enum displaymap_status {
    DISPLAYMAP_OK = 0,
    /* Refusals, with the numbers that a script prints after `!`. */
    DISPLAYMAP_NOT_COMMAND = 1, /* the line isn't one JSON object with one key that is known and a value of its form */
    DISPLAYMAP_BAD_RANGE = 2,   /* an offset is past the end or inside a character, ranges aren't in order, a fold is empty,
                                 * or a block's row is past the last */
    DISPLAYMAP_ID_IN_USE = 3,   /* an inlay, a fold, a block or a mark has the id of one of its kind */
    DISPLAYMAP_UNKNOWN_ID = 4,  /* none of that kind has the id */
    DISPLAYMAP_TOO_LONG = 5,    /* a text over 33,554,432 bytes, a line over 1,048,576, an inlay's text or a block's line
                                 * over 1,024, or there are 65,536 of that kind */
    DISPLAYMAP_BAD_NUMBER = 6,  /* an id is over 4,294,967,295, a tab size isn't 1 to 16, or a width neither 0 nor 2 to 10,000 */
    DISPLAYMAP_BAD_TEXT = 7,    /* an inlay's text is empty, or a block has no lines, over 256, or a line break inside one */
    /* Others. */
    DISPLAYMAP_CLOSED = 16,       /* the handle is closed */
    DISPLAYMAP_NO_MEMORY = 17,    /* out of memory; the same call may succeed later */
    DISPLAYMAP_JOURNAL_FULL = 18, /* the display had 4,294,967,295 events: open the text anew */
    DISPLAYMAP_NOT_UTF8 = 19,     /* the bytes of a text aren't UTF-8 */
    DISPLAYMAP_NO_ROW = 20        /* the row is past the last */
};

/* Returns the number of this interface, 1. */
uint32_t displaymap_version(void);

/* Opens a text of UTF-8, at a tab size of 4 cells and a width of 80. What the handle held before is closed, also where this
 * fails. Fails with TOO_LONG, NOT_UTF8 and NO_MEMORY. */
uint32_t displaymap_open(displaymap *d, const uint8_t *text, size_t length);

/* Closes a handle, and frees what it held. A closed handle stays closed. */
void displaymap_close(displaymap *d);

/* Does what one line of a script asks, as {"fold":[1,11,67]} or {"rows":[0,40]}. README.md of the repository has the keys,
 * and crates/edit_script/README.md their values, here in the second form. A question but `peek` first wraps every line that
 * waits. Its lines are kept as the answer, each with a LF after it; a line that isn't a question leaves an empty answer.
 * Fails with the refusals, NO_MEMORY and JOURNAL_FULL. */
uint32_t displaymap_line(displaymap *d, const uint8_t *line, size_t length);

/* Replaces the bytes of the text from `start` to `end` by others, as the line {"edit":[[start,end,text]]} does.
 * Fails with BAD_RANGE, TOO_LONG, NOT_UTF8, NO_MEMORY and JOURNAL_FULL. */
uint32_t displaymap_edit(displaymap *d, uint32_t start, uint32_t end, const uint8_t *text, size_t length);

/* The text as it is now. `text_len` gives how many bytes it has. `slice` keeps the bytes from `start` to `end` as the
 * answer; both have to be boundaries of characters, in order.
 * They fail with NO_MEMORY, and `slice` with BAD_RANGE. */
uint32_t displaymap_text_len(displaymap *d, uint32_t *bytes);
uint32_t displaymap_slice(displaymap *d, uint32_t start, uint32_t end);

/* Marks of the caller's own, as carets, selections and faults. A mark is at an offset of the text, and has an id that the
 * caller chose. Each edit moves it, by `edit` or by a line, and nothing else does. It stays between the bytes around it. At
 * the start of bytes that are replaced, or where others are put in, it is before the new ones for left and after them for
 * right. Between bytes that are replaced, or at their end, it is after the new ones.
 * `add_mark` adds one, `remove_mark` takes it away, and `mark` gives its offset. The last answer is kept.
 * `add_mark` fails with ID_IN_USE, BAD_RANGE, TOO_LONG and NO_MEMORY, `remove_mark` with UNKNOWN_ID and NO_MEMORY, and
 * `mark` with UNKNOWN_ID. */
uint32_t displaymap_add_mark(displaymap *d, uint32_t id, uint32_t offset, bool right);
uint32_t displaymap_remove_mark(displaymap *d, uint32_t id);
uint32_t displaymap_mark(displaymap *d, uint32_t id, uint32_t *offset);

/* Wraps lines. A line that a change touched is one row until it is wrapped. After a change of the width each line keeps its
 * rows until it is wrapped anew. Wraps up to `runs` runs of lines that wait, of 128 lines at most each. `*waits` is false where
 * no line waits any more.
 * Fails with NO_MEMORY and JOURNAL_FULL. */
uint32_t displaymap_wrap(displaymap *d, uint32_t runs, bool *waits);

/* Copies the bytes of the last answer from byte `from` on, as many as there are and as fit into `room` bytes, and returns
 * the length of the whole answer: 0 where the handle is closed. Bytes of `out` past those stay as they were. */
size_t displaymap_answer(displaymap *d, size_t from, uint8_t *out, size_t room);

/* The rows as they are now; lines that wait are not wrapped first.
 * `row_count` gives how many there are. `row` keeps the text of one row as the answer, without a LF; `*kind` is 't' for a
 * line's first row, 'w' for one that goes on, 'b' for a block's. `rows` keeps up to `count` rows from number `first` on as
 * the answer, as the lines that {"rows":[first,count]} prints: number, space, kind, '|', text, LF.
 * They fail with NO_MEMORY, and `row` with NO_ROW. */
uint32_t displaymap_row_count(displaymap *d, uint32_t *count);
uint32_t displaymap_row(displaymap *d, uint32_t row, uint32_t *kind);
uint32_t displaymap_rows(displaymap *d, uint32_t first, uint32_t count);

/* Gives the pieces of one row, in order, as it is now: what lies in its cells, and what that comes from. Writes as many as
 * there are and as fit into `room` pieces; `*count` is how many there are. Pieces of `out` past those stay as they were.
 * The row's text is kept as the answer, as `row` keeps it; the texts of the pieces lie in it one after another. Neighbours
 * are never both text, nor of one inlay. An empty row of text has no piece.
 * Fails with NO_MEMORY and NO_ROW. */
uint32_t displaymap_pieces(displaymap *d, uint32_t row, displaymap_piece *out, size_t room, size_t *count);

/* Gives the rows that changed since this was last asked of the handle, by changes and by wrapping: what covers all of them, in
 * one piece. `from` and `to` count the rows of then, and `count` rows of now. Each row before `from` is as it was in its kind,
 * its text and its pieces, but for the offsets of these. So is each one from `to` on, which now begin at `from + count`. A row
 * within may also look as before.
 * Asking begins anew: the next time it gives what changed from now on. After `open`, the first time no row makes place for all.
 * A display that was never asked keeps nothing for it. The last answer is kept.
 * Fails with NO_MEMORY; then the same may be asked again. */
uint32_t displaymap_changed_rows(displaymap *d, displaymap_change *change);

/* `show` gives the place where an offset is shown; `clip` the nearest place at which some offset is shown, on the side of
 * the bias; `back` the offset that this place shows, the least for left and the greatest for right.
 * They fail with NO_MEMORY, and `show` with BAD_RANGE. */
uint32_t displaymap_show(displaymap *d, uint32_t offset, bool right, displaymap_place *place);
uint32_t displaymap_clip(displaymap *d, uint32_t row, uint32_t column, bool right, displaymap_place *place);
uint32_t displaymap_back(displaymap *d, uint32_t row, uint32_t column, bool right, uint32_t *offset);

#ifdef __cplusplus
}
#endif

#endif
