/* The heap of the C library on aarch64, over malloc, realloc and free. The Rattle kit has compiled its own for x86-64
 * alone, so this is written from the contracts of its library libc. No proof covers it: it is part of the trusted code. */

typedef __SIZE_TYPE__ size;

void *malloc(size length);
void *realloc(void *block, size length);
void free(void *block);

/* Whether there was memory, and where. */
struct tried {
    _Bool ok;
    void *block;
};

/* What `block` points to where there was none. */
static char nothing;

static struct tried tried(void *block)
{
    return (struct tried){ .ok = block != 0, .block = block ? block : &nothing };
}

/* malloc of 0 bytes may answer a null pointer that is no failure. */
static size at_least_one(size length, size align)
{
    return length ? length : align;
}

struct tried rattle_alloc(size length, size align);
struct tried rattle_realloc(void *block, size kept, size length, size align);
void rattle_dealloc(void *block);

/* A new block. `align` divides 16, as every block of malloc is aligned on this machine. */
struct tried rattle_alloc(size length, size align)
{
    return tried(malloc(at_least_one(length, align)));
}

/* The block with another length, and its first `kept` bytes as they were; or the old one, as it was. */
struct tried rattle_realloc(void *block, size kept, size length, size align)
{
    (void)kept;
    return tried(realloc(block, at_least_one(length, align)));
}

void rattle_dealloc(void *block)
{
    free(block);
}
