/* What the program needs on aarch64 beside glibc and heap.c: its first instructions, its arguments, its environment, and errno. The Rattle
 * kit has compiled its own for x86-64 alone, so this is written from the contracts of its library os, and from how Linux
 * enters a program. No proof covers it: it is part of the trusted code. */

typedef __SIZE_TYPE__ size;
typedef __PTRDIFF_TYPE__ difference;

int main(void);
int *__errno_location(void);
int __libc_start_main(int (*program)(void), int count, unsigned char **given, void (*at_start)(void), void (*at_end)(void),
                      void (*of_loader)(void), void *stack);

/* The arguments, the program's own name first: how many, and each with a 0 behind it. */
static size count;
static unsigned char **arguments;

void _start(void);
void begin(void (*of_loader)(void), size *stack);

/* Linux and the loader enter here. The stack holds the number of arguments, and then the arguments. x0 is the function of
 * the loader that glibc calls at the end. The zeros say that this has no caller. */
__attribute__((naked, noreturn)) void _start(void)
{
    __asm__("mov x29, xzr\n\t"
            "mov x30, xzr\n\t"
            "mov x1, sp\n\t"
            "b begin");
}

/* Keeps where the arguments are. Then glibc sets itself up, runs `main`, and ends the program with its status. */
__attribute__((noreturn, visibility("hidden"))) void begin(void (*of_loader)(void), size *stack)
{
    count = stack[0];
    arguments = (unsigned char **)(stack + 1);
    __libc_start_main(main, (int)count, arguments, 0, 0, of_loader, stack);
    __builtin_trap();
}

int rattle_errno(void);
void rattle_set_errno(int error);
size rattle_arg_count(void);
difference rattle_arg(size at, unsigned char *bytes, size room);
difference rattle_env(const unsigned char *name, unsigned char *bytes, size room);

/* Reads the errno of this thread, and sets it. */
int rattle_errno(void)
{
    return *__errno_location();
}

void rattle_set_errno(int error)
{
    *__errno_location() = error;
}

/* How many arguments there are, the program's own name among them. */
size rattle_arg_count(void)
{
    return count;
}

/* Puts a text that ends with a 0 at the start of `bytes`, and returns its length; or -2 where it is longer than `room`, and
 * then `bytes` is full. */
static difference put(const unsigned char *from, unsigned char *bytes, size room)
{
    size length = 0;

    for (; from[length]; length++) {
        if (length == room) {
            return -2;
        }
        bytes[length] = from[length];
    }
    return (difference)length;
}

/* Puts argument `at` at the start of `bytes`, as `put` does; -1 where there is no such argument. */
difference rattle_arg(size at, unsigned char *bytes, size room)
{
    return at < count ? put(arguments[at], bytes, room) : -1;
}

/* Puts the value of the environment's variable of this name, which ends with a 0, at the start of `bytes`, as `put` does; -1
 * where there is no such variable. The environment stands behind the 0 behind the arguments. */
difference rattle_env(const unsigned char *name, unsigned char *bytes, size room)
{
    for (unsigned char **entry = arguments + count + 1; *entry; entry++) {
        size at = 0;

        while (name[at] && (*entry)[at] == name[at]) {
            at++;
        }
        if (!name[at] && (*entry)[at] == '=') {
            return put(*entry + at + 1, bytes, room);
        }
    }
    return -1;
}
