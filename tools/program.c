/* program.c: what a program is linked with, on any 64-bit Linux (tools/native-program.sh). Of the C functions that the toolchain's libraries os and libc call there
 * is x86-64 code alone, and a program goes by the name that it was made under: both are here, and the exit status. The `main`, the `write` and the `__sysv_signal`
 * of a program's module are called program_main, program_write and program_signal. No header is used, so that the toolchain's own clang compiles this, with no C
 * library at hand.
 *
 * The exit status is that of the program's own main, where that is not 0. It is 1 where something was told on standard error, and where the program says `bad` or
 * `long`: as the last line of its text, where TRACE is defined; else in place of its output, which is then shorter than any tile, block or picture. Otherwise it is 0.
 */
typedef unsigned long size;

enum { SHORTEST = 32 };

extern char **environ;
int *__errno_location(void);
char *getenv(const char *name);
void *malloc(size count);
void *realloc(void *from, size count);
void free(void *from);
long write(int to, const void *from, size count);
int program_main(void);

static int words;         /* the arguments: word 0 is NAME, whatever the file is called */
static char **word;
static int told;          /* something was to be told on standard error */
static size written;      /* bytes of output */
static size line;         /* those of its last line, its end among them */
static char last = '\n';  /* its last byte */
static char start[4];     /* the first bytes of its last line */

long program_write(int to, const void *from, size count)
{
    long put = write(to, from, count);
    if (to == 2)
        told = 1;
    if (to == 1)
        for (long k = 0; k < put; k++) {
            line = last == '\n' ? 0 : line;
            last = ((const char *)from)[k];
            if (line < sizeof start)
                start[line] = last;
            line++;
            written++;
        }
    return put;
}

/* A program's main would have a broken pipe told, and not end it. */
long program_signal(int signal, long handler)
{
    (void)signal, (void)handler;
    return 0;
}

/* The last line begins with `bad` or `long`. */
static int refused(void)
{
    return line >= sizeof start && ((start[0] == 'b' && start[1] == 'a' && start[2] == 'd') ||
                                    (start[0] == 'l' && start[1] == 'o' && start[2] == 'n' && start[3] == 'g'));
}

int main(int argc, char **argv)
{
#ifdef TRACE
    const int text = 1;
#else
    const int text = 0;
#endif
    words = argc;
    word = argv;
    int status = program_main();
    return status ? status : told || ((text || written < SHORTEST) && refused());
}

/* The functions of the libraries os and libc, by their contracts there (rattle/os/src/c.rt and rattle/libc/src/heap.rt of the toolchain). */
int rattle_errno(void) { return *__errno_location(); }
void rattle_set_errno(int error) { *__errno_location() = error; }
size rattle_arg_count(void) { return (size)words; }

/* A text into a buffer of this room: its length, -1 where there is none, -2 where it does not fit. */
static long copied(const char *from, char *buffer, size room)
{
    size n = 0;
    if (!from)
        return -1;
    for (; from[n] != 0; n++) {
        if (n == room)
            return -2;
        buffer[n] = from[n];
    }
    return (long)n;
}

long rattle_arg(size i, char *buffer, size room)
{
    return copied(i >= (size)words ? 0 : i == 0 ? NAME : word[i], buffer, room);
}

long rattle_env(const char *name, char *buffer, size room) { return copied(getenv(name), buffer, room); }

long rattle_env_at(size i, char *buffer, size room)
{
    char **entry = environ;
    while (entry && *entry && i > 0) {
        entry++;
        i--;
    }
    return copied(entry ? *entry : 0, buffer, room);
}

/* Whether there is memory, and where. */
struct tried {
    size ok;
    void *place;
};

static struct tried got(void *place)
{
    static char nothing[16];
    struct tried tried = {place != 0, place ? place : nothing};
    return tried;
}

struct tried rattle_alloc(size count, size align) { return got(malloc(count ? count : align)); }

struct tried rattle_realloc(void *from, size kept, size count, size align)
{
    (void)kept;
    return got(realloc(from, count ? count : align));
}

void rattle_dealloc(void *from) { free(from); }
