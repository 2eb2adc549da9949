/* Loaded before the C library: standard input gives one byte for each read, and standard output takes a few for each write, until as many
   bytes have passed as the environment says. The next call then fails with an error, or moves nothing if that is 0. Later calls go on, input
   from its beginning, so a repeated call shows. */
typedef unsigned long size;

extern long __read(int, void *, size);
extern long __write(int, const void *, size);
extern long lseek(int, long, int);
extern int *__errno_location(void);
extern char *getenv(const char *);

/* A stream: what has passed, when it ends, and how. */
struct stream {
    long passed, room, error;
};

static struct stream input = {0, -2, 0}, output = {0, -2, 0};

static long number(const char *name, long otherwise) {
    const char *word = getenv(name);
    long found = 0;
    if (!word) {
        return otherwise;
    }
    for (; *word >= '0' && *word <= '9'; word++) {
        found = 10 * found + (*word - '0');
    }
    return found;
}

static int ends(struct stream *stream, const char *room, const char *error) {
    if (stream->room == -2) {
        stream->room = number(room, -1);
        stream->error = number(error, 0);
    }
    if (stream->passed != stream->room) {
        return 0;
    }
    stream->room = -1;
    return 1;
}

static long outcome(struct stream *stream) {
    if (!stream->error) {
        return 0;
    }
    *__errno_location() = (int)stream->error;
    return -1;
}

long read(int file, void *to, size bytes) {
    if (file != 0 || bytes == 0) {
        return __read(file, to, bytes);
    }
    if (ends(&input, "INPUT_ENDS_AT", "INPUT_ERROR")) {
        lseek(0, 0, 0);
        return outcome(&input);
    }
    input.passed++;
    return __read(file, to, 1);
}

long write(int file, const void *from, size bytes) {
    size most = (size)number("OUTPUT_STEP", 1);
    if (file != 1) {
        return __write(file, from, bytes);
    }
    if (ends(&output, "OUTPUT_ENDS_AT", "OUTPUT_ERROR")) {
        return outcome(&output);
    }
    if (output.room >= 0 && (size)(output.room - output.passed) < most) {
        most = (size)(output.room - output.passed);
    }
    if (bytes < most) {
        most = bytes;
    }
    output.passed += (long)most;
    return __write(file, from, most);
}
