/* Makes random calls from eight threads for so many seconds: those of a table, with bytes changed, lost or taken twice. Each text and
 * each buffer lies at the end of its pages or at their front, beside a page that nobody may touch. */
#define _GNU_SOURCE
#include "call.h"
#include <pthread.h>
#include <stdio.h>
#include <sys/mman.h>
#include <time.h>

enum { THREADS = 8, MOST_CALLS = 1000, LINE = 1024, PAGE = 4096, ROOM = 16 * PAGE };

static char lines[MOST_CALLS][LINE];
static size_t line_count;
static time_t end;

/* Pages between two that nobody may touch. */
typedef struct {
    uint8_t *begin;
} pages;

/* What one thread has: its random numbers, and pages for a shape, a text and a result. */
typedef struct {
    uint64_t state;
    pages shape, text, out;
    uint64_t made;
} worker;

static uint64_t below(worker *worker, uint64_t bound) {
    worker->state ^= worker->state << 13;
    worker->state ^= worker->state >> 7;
    worker->state ^= worker->state << 17;
    return worker->state % bound;
}

static void stop(const char *why) {
    fprintf(stderr, "%s\n", why);
    exit(1);
}

static pages guarded_pages(void) {
    uint8_t *all = mmap(NULL, ROOM + 2 * PAGE, PROT_NONE, MAP_PRIVATE | MAP_ANONYMOUS, -1, 0);
    if (all == MAP_FAILED || mprotect(all + PAGE, ROOM, PROT_READ | PROT_WRITE) != 0)
        stop("no pages");
    return (pages){all + PAGE};
}

/* The place of so many bytes, at the end of the pages or at their front. */
static uint8_t *placed(worker *worker, pages pages, size_t size) {
    return below(worker, 2) == 0 ? pages.begin : pages.begin + ROOM - size;
}

/* Copies the text with some changes, and returns its size. */
static size_t changed(worker *worker, const char *text, uint8_t *copy) {
    static const char signs[] = "[]=&%+.{}(),:?\"\\0a\x80\xff";
    size_t size = strlen(text);
    memcpy(copy, text, size);
    for (uint64_t left = below(worker, 4); left > 0 && size > 1; left--) {
        size_t at = below(worker, size);
        switch (below(worker, 3)) {
        case 0:
            copy[at] = (uint8_t)signs[below(worker, sizeof signs)];
            break;
        case 1:
            memmove(copy + at, copy + at + 1, --size - at);
            break;
        default:
            if (2 * size - at < 4 * LINE) {
                memmove(copy + size, copy + at, size - at);
                size += size - at;
            }
        }
    }
    return size;
}

/* The same call with no room, with just enough and with random room leaves what the header says. */
static void check_call(worker *worker, qs_call *call, size_t shape_size, size_t size) {
    qs_answer first = {0, 0}, answer = {0, 0};
    uint32_t small = make_sized(call, shape_size, size, worker->out.begin + ROOM, 0, &first);
    if (first.len > ROOM)
        return;
    uint8_t *out = placed(worker, worker->out, first.len);
    memset(out, 0xa5, first.len);
    uint32_t status = make_sized(call, shape_size, size, out, first.len, &answer);
    if (answer.len != first.len || answer.position != first.position || status > QS_BAD_PATH || status == QS_TOO_SMALL)
        stop("a call with room has another result");
    if (small != (status == QS_OK && first.len > 0 ? (uint32_t)QS_TOO_SMALL : status))
        stop("a call without room has another status");
    if (answer.position > (status == QS_OK ? answer.len : status == QS_BAD_SHAPE ? shape_size : size + 1))
        stop("the position is behind the end");
    size_t less = first.len > 0 ? below(worker, first.len) : 0;
    out = placed(worker, worker->out, less);
    memset(out, 0xa5, less);
    make_sized(call, shape_size, size, out, less, &answer);
    for (size_t at = 0; at < less; at++)
        if (out[at] != 0xa5)
            stop("a buffer that is too small was written to");
}

/* None, or one below the bound. */
static size_t limit(worker *worker, uint64_t bound) {
    return below(worker, 4) > 0 ? 0 : below(worker, bound);
}

static void make_random_call(worker *worker) {
    char line[LINE];
    uint8_t shape[4 * LINE], text[4 * LINE];
    strcpy(line, lines[below(worker, line_count)]);
    qs_call call = call_of(line);
    call.settings.max_depth = below(worker, 8);
    call.settings.form = below(worker, 2);
    call.settings.array_format = (uint8_t)below(worker, 3);
    call.settings.reject_duplicates = below(worker, 2);
    call.settings.max_length = limit(worker, 100);
    call.settings.max_pairs = limit(worker, 5);
    call.settings.max_output = limit(worker, 100);
    size_t shape_size = changed(worker, call.shape, shape), size = changed(worker, call.text, text);
    uint8_t *shape_at = placed(worker, worker->shape, shape_size), *text_at = placed(worker, worker->text, size);
    memcpy(shape_at, shape, shape_size);
    memcpy(text_at, text, size);
    call.shape = (const char *)shape_at;
    call.text = (const char *)text_at;
    check_call(worker, &call, shape_size, size);
    worker->made++;
}

static void *work(void *given) {
    worker *worker = given;
    worker->shape = guarded_pages();
    worker->text = guarded_pages();
    worker->out = guarded_pages();
    while (time(NULL) < end)
        for (int at = 0; at < 100; at++)
            make_random_call(worker);
    return NULL;
}

int main(int count, char **arguments) {
    FILE *file = count == 3 ? fopen(arguments[1], "r") : NULL;
    if (file == NULL)
        stop("usage: guarded TABLE SECONDS");
    while (line_count < MOST_CALLS && fgets(lines[line_count], LINE, file) != NULL)
        line_count++;
    end = time(NULL) + atoi(arguments[2]);
    pthread_t threads[THREADS];
    static worker workers[THREADS];
    uint64_t made = 0;
    for (int at = 0; at < THREADS; at++) {
        workers[at].state = (uint64_t)at + 1;
        if (pthread_create(&threads[at], NULL, work, &workers[at]) != 0)
            stop("no thread");
    }
    for (int at = 0; at < THREADS; at++) {
        pthread_join(threads[at], NULL);
        made += workers[at].made;
    }
    printf("%llu calls\n", (unsigned long long)made);
    return made == 0;
}
