/* Memory for the module. On Linux the library takes its memory from malloc; a module has no C library, so this stands in its place.
 *
 * Each block is a power of two of bytes. A header of 16 bytes says which power, and keeps what follows aligned to 16, the most that the
 * library asks for. A freed block waits in the list of its size for the next one who asks. Memory never goes back to the browser: a page
 * that is closed gives back all of it. */
#include <stddef.h>
#include <stdint.h>

enum { HEADER = 16, LEAST = 5, MOST = 40, WASM_PAGE = 65536 };

typedef struct block {
    uint64_t power;     /* the block has 2^power bytes, with this header */
    struct block *next; /* in the list of free blocks */
} block;

/* What the library is answered: whether there was memory, and where it stands. */
typedef struct {
    uint64_t ok;
    void *p;
} tried;

extern uint8_t __heap_base; /* the linker puts it behind the stack and all data */
static block *spare[MOST];
static uint64_t top;

/* The least power of two that holds n bytes and a header; MOST where that is more than any memory. */
static uint64_t power_for(uint64_t n) {
    uint64_t power = LEAST;
    while (power < MOST && ((uint64_t)1 << power) - HEADER < n) power++;
    return power;
}

/* Whether the memory reaches up to `end`, perhaps after it has grown. */
static int reaches(uint64_t end) {
    uint64_t have = (uint64_t)__builtin_wasm_memory_size(0) * WASM_PAGE;
    if (end <= have) return 1;
    __builtin_wasm_memory_grow(0, (end - have + WASM_PAGE - 1) / WASM_PAGE);
    return end <= (uint64_t)__builtin_wasm_memory_size(0) * WASM_PAGE;
}

static void *take(uint64_t n) {
    uint64_t power = power_for(n), end;
    block *b;
    if (power == MOST) return NULL;
    b = spare[power];
    if (b) {
        spare[power] = b->next;
        return (uint8_t *)b + HEADER;
    }
    if (!top) top = ((uint64_t)&__heap_base + HEADER - 1) / HEADER * HEADER;
    end = top + ((uint64_t)1 << power);
    if (!reaches(end)) return NULL;
    b = (block *)top;
    top = end;
    b->power = power;
    return (uint8_t *)b + HEADER;
}

static block *block_of(void *p) { return (block *)((uint8_t *)p - HEADER); }

static void give_back(void *p) {
    block *b = block_of(p);
    b->next = spare[b->power];
    spare[b->power] = b;
}

static tried answer(void *p) {
    static uint64_t nothing[2]; /* what is answered where there is no memory: it is not null */
    return p ? (tried){1, p} : (tried){0, nothing};
}

/* The three functions of the kit's libc (its c/heap.c has them over malloc). */
tried rattle_alloc(uint64_t n, uint64_t align) {
    (void)align;
    return answer(take(n));
}

tried rattle_realloc(void *p, uint64_t kept, uint64_t n, uint64_t align) {
    void *moved;
    (void)align;
    if (((uint64_t)1 << block_of(p)->power) - HEADER >= n) return answer(p);
    moved = take(n);
    if (!moved) return answer(NULL);
    __builtin_memcpy(moved, p, kept < n ? kept : n);
    give_back(p);
    return answer(moved);
}

void rattle_dealloc(void *p) { give_back(p); }

/* Room for what the page lends to a call; null where there is no memory. */
__attribute__((export_name("room"))) void *room(uint64_t n) { return take(n); }
__attribute__((export_name("free_room"))) void free_room(void *p) { give_back(p); }
