/* A library to preload under a program: it refuses the nth allocation, so that a test can have each growth
   refused in turn.

   Of a program as it is, it refuses the nth allocation from its start (n from 1), where the environment variable
   FAILMALLOC_FIRST names one. A program that knows of it, as svid_script does, commands it by sizes that no
   allocator can give:
     2^62 + n          refuse the nth allocation that follows (n from 1; 0: refuse none); itself refused
     2^62 + 2^61       is "given" exactly where an allocation was refused since the last command

   At exit it writes how many allocations it refused, a number and a line end, to the file descriptor
   that the environment variable FAILMALLOC_COUNT_FD names. At each command 2^62 + 0 it writes two lines in the same way to
   the file descriptor that FAILMALLOC_HELD_FD names: how many bytes the program holds, and how many it held at most since
   the command before.

   Built with no headers: cc -c -O2 -fno-builtin -fPIC, then ld -shared. */

typedef unsigned long size_t;

extern void *__libc_malloc(size_t size);
extern void *__libc_realloc(void *old, size_t size);
extern void *__libc_calloc(size_t count, size_t size);
extern void __libc_free(void *old);
extern size_t malloc_usable_size(void *block);
extern char *getenv(const char *name);
extern long write(int fd, const void *bytes, size_t count);

#define ARM (1ul << 62)
#define ASK (ARM + (1ul << 61))
#define MOST_ARMED (1ul << 32)

static size_t countdown;      /* the allocation to refuse, counted down to 0; 0: none */
static int refused_since;     /* whether one was refused since the last command */
static size_t refused_in_all;
static size_t held;           /* how many bytes the blocks have that were given and not taken back */
static size_t most_held;      /* how many they had at most since the last command */

/* The number that an environment variable has; 0 where it has none. */
static size_t number_of(const char *name)
{
    const char *digits = getenv(name);
    size_t number = 0;
    for (; digits && *digits >= '0' && *digits <= '9'; digits++)
        number = number * 10 + (size_t)(*digits - '0');
    return number;
}

/* Writes a number and a line end to a file descriptor; to none where that is 0. */
static void tell_number(int fd, size_t number)
{
    char text[24];
    int at = sizeof text;
    if (fd == 0)
        return;
    text[--at] = '\n';
    do {
        text[--at] = '0' + number % 10;
        number /= 10;
    } while (number);
    (void)!write(fd, text + at, sizeof text - at);
}

/* The block, which is counted from here on. */
static void *counted(void *block)
{
    if (block)
        held += malloc_usable_size(block);
    if (held > most_held)
        most_held = held;
    return block;
}

/* Whether this allocation is to be refused. */
static int is_due(size_t size)
{
    if (size >= ARM && size < ARM + MOST_ARMED) {
        countdown = size - ARM;
        refused_since = 0;
        if (countdown == 0) {
            tell_number((int)number_of("FAILMALLOC_HELD_FD"), held);
            tell_number((int)number_of("FAILMALLOC_HELD_FD"), most_held);
        }
        most_held = held;
        return 1;
    }
    if (countdown == 0 || --countdown != 0)
        return 0;
    refused_since = 1;
    refused_in_all++;
    return 1;
}

void *malloc(size_t size)
{
    if (size == ASK)
        return refused_since ? counted(__libc_malloc(1)) : 0;
    return is_due(size) ? 0 : counted(__libc_malloc(size));
}

void *realloc(void *old, size_t size)
{
    size_t before = malloc_usable_size(old);
    void *new = is_due(size) ? 0 : __libc_realloc(old, size);
    if (new || size == 0)
        held -= before;
    return counted(new);
}

void *calloc(size_t count, size_t size)
{
    return is_due(size) ? 0 : counted(__libc_calloc(count, size));
}

void free(void *old)
{
    held -= malloc_usable_size(old);
    __libc_free(old);
}

__attribute__((constructor)) static void begin(void)
{
    countdown = number_of("FAILMALLOC_FIRST");
}

__attribute__((destructor)) static void tell(void)
{
    tell_number((int)number_of("FAILMALLOC_COUNT_FD"), refused_in_all);
}
