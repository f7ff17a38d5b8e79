/* The heap of the module, over a memory that grows: malloc and free for the page, and the three functions that proved code calls
 * for its own. It takes the place of the C library under the archive for C. Nothing proves this file. */
typedef __SIZE_TYPE__ size_t;

/* What a block begins with. It has 2^power bytes, and lies in the list of its power while it is free. */
typedef struct block {
    size_t power;
    struct block *next;
} block;

#define PAGE ((size_t)65536)
#define POWERS 41

extern unsigned char __heap_base;
static block *freed[POWERS];
static size_t top, end; /* of the memory that was never part of a block */

/* The least power whose blocks have room for so many bytes; POWERS where that is too much. */
static size_t power_for(size_t bytes) {
    size_t power = 5;
    while (power < POWERS && ((size_t)1 << power) - sizeof(block) < bytes) power++;
    return power;
}

static block *fresh_block(size_t power) {
    size_t size = (size_t)1 << power;
    if (!top) {
        top = ((size_t)&__heap_base + 15) & ~(size_t)15;
        end = __builtin_wasm_memory_size(0) * PAGE;
    }
    if (end - top < size) {
        size_t pages = (size - (end - top) + PAGE - 1) / PAGE;
        if (__builtin_wasm_memory_grow(0, pages) == (size_t)-1) return 0;
        end += pages * PAGE;
    }
    block *it = (block *)top;
    top += size;
    return it;
}

__attribute__((export_name("malloc"))) void *malloc(size_t bytes) {
    size_t power = power_for(bytes);
    if (power == POWERS) return 0;
    block *it = freed[power];
    if (it) freed[power] = it->next;
    else if (!(it = fresh_block(power))) return 0;
    it->power = power;
    return it + 1;
}

__attribute__((export_name("free"))) void free(void *at) {
    if (!at) return;
    block *it = (block *)at - 1;
    it->next = freed[it->power];
    freed[it->power] = it;
}

/* What proved code is given: whether there was memory, and where; else a byte that nobody reads. */
typedef struct {
    size_t ok;
    void *at;
} tried;

static unsigned char nothing;

static tried given(void *at) {
    return (tried){.ok = at != 0, .at = at ? at : &nothing};
}

tried rattle_alloc(size_t bytes, size_t align) {
    return given(malloc(bytes ? bytes : align));
}

tried rattle_realloc(void *at, size_t kept, size_t bytes, size_t align) {
    size_t size = bytes ? bytes : align;
    if (power_for(size) == ((block *)at - 1)->power) return given(at);
    void *moved = malloc(size);
    if (moved) {
        __builtin_memcpy(moved, at, kept < size ? kept : size);
        free(at);
    }
    return given(moved);
}

void rattle_dealloc(void *at) {
    free(at);
}
