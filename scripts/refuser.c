/* Loaded before the C library: counts the calls of malloc, calloc and realloc, and answers the one whose number is in
   REFUSE_AT with a null pointer. Then it writes a byte to the file whose number is in REFUSE_TELL. To the file whose number
   is in LARGEST_TELL it writes a line for each request for more bytes than any before.

   No header is read, so that a compiler without the C library's will do. */
typedef unsigned long size;

extern void *__libc_malloc(size);
extern void *__libc_calloc(size, size);
extern void *__libc_realloc(void *, size);
extern char *getenv(const char *);
extern int atoi(const char *);
extern long atol(const char *);
extern long write(int, const void *, size);
extern void abort(void);
extern int *__errno_location(void);

enum { OUT_OF_MEMORY = 12, DIGITS = 20 };

/* How many more calls there are, the refused one included; 0: none is refused any more. */
static long left = -1;

static size largest = 0;

static void tell(const char *name, const char *bytes, size count)
{
    const char *file = getenv(name);
    if (file && write(atoi(file), bytes, count) != (long)count)
        abort();
}

static void tell_largest(size bytes)
{
    char line[DIGITS + 1];
    size at = DIGITS;
    line[at] = '\n';
    for (size rest = largest = bytes; rest > 0; rest /= 10)
        line[--at] = (char)('0' + rest % 10);
    tell("LARGEST_TELL", line + at, DIGITS + 1 - at);
}

static int refuses(size bytes)
{
    if (bytes > largest)
        tell_largest(bytes);
    if (left < 0) {
        const char *at = getenv("REFUSE_AT");
        left = at ? atol(at) : 0;
    }
    if (left == 0 || --left > 0)
        return 0;
    tell("REFUSE_TELL", "r", 1);
    *__errno_location() = OUT_OF_MEMORY;
    return 1;
}

void *malloc(size bytes) { return refuses(bytes) ? 0 : __libc_malloc(bytes); }

void *calloc(size count, size bytes) { return refuses(count * bytes) ? 0 : __libc_calloc(count, bytes); }

void *realloc(void *old, size bytes) { return refuses(bytes) ? 0 : __libc_realloc(old, bytes); }
