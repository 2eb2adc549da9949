/* Loaded before the C library: makes the allocation fail whose number the environment names, and says so by a byte to descriptor 9. */
typedef unsigned long size;

extern void *__libc_malloc(size);
extern void *__libc_calloc(size, size);
extern void *__libc_realloc(void *, size);
extern char *getenv(const char *);
extern long write(int, const void *, size);

static long calls = 0;
static long wanted = -1;

static int fails(void) {
    if (wanted < 0) {
        const char *word = getenv("FAILING_ALLOCATION");
        wanted = 0;
        for (; word && *word >= '0' && *word <= '9'; word++) {
            wanted = 10 * wanted + (*word - '0');
        }
    }
    calls++;
    if (calls != wanted) {
        return 0;
    }
    write(9, "!", 1);
    return 1;
}

void *malloc(size bytes) { return fails() ? 0 : __libc_malloc(bytes); }

void *calloc(size count, size bytes) { return fails() ? 0 : __libc_calloc(count, bytes); }

void *realloc(void *at, size bytes) { return fails() ? 0 : __libc_realloc(at, bytes); }
