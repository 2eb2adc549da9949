/* Makes the calls of a file's lines, and those that nest as deep as a call allows, on a thread whose stack has so many KiB: `stack 192 FILE`.
 * A call that takes more ends the program by a signal. */
#include "call.h"
#include <pthread.h>
#include <stdio.h>

/* The depth limit, and how deep shapes and JSON nest, at most. */
enum { DEEPEST = 100, DEEPEST_SHAPE = 32, DEEPEST_JSON = 128 };

/* Shapes that nest: what stands on both sides of the inner one, and the key that leads to it. */
static const struct shape {
    const char *open, *close, *key, *segment;
} shapes[] = {
    {"{a: ", "}", "a", "[a]"}, {"map(text, ", ")", "a", "[a]"}, {"enum(a(", "))", "a", "[a]"}, {"enum(a{a: ", "})", "a[a]", "[a][a]"}, {"(", ")", "0", "[0]"}, {"[", "]", "0", "[0]"},
};

static uint8_t out[1 << 16];
static unsigned wrong;

/* `begin`, so many times `open`, `middle`, as many times `close`, and `end`. */
static const char *nested(const char *begin, int levels, const char *open, const char *middle, const char *close, const char *end) {
    static char texts[2][4096];
    static int which;
    char *text = texts[which = !which];
    strcpy(text, begin);
    for (int i = 0; i < levels; i++)
        strcat(text, open);
    strcat(text, middle);
    for (int i = 0; i < levels; i++)
        strcat(text, close);
    return strcat(text, end);
}

static void deepest(const char *name, const char *shape, const char *text, uint32_t status) {
    qs_call call = {name, shape, text, qs_default};
    qs_answer answer;
    call.settings.max_depth = DEEPEST;
    if (make(&call, out, sizeof out, &answer) != status) {
        fprintf(stderr, "%s of %.40s.. doesn't have status %u\n", name, text, (unsigned)status);
        wrong++;
    }
}

static void *calls(void *file) {
    static char line[4096];
    qs_answer answer;
    while (fgets(line, sizeof line, file) != NULL) {
        qs_call call = call_of(line);
        make(&call, out, sizeof out, &answer);
    }
    for (const char **name = (const char *[]){"any", "ignored", NULL}; *name != NULL; name++)
        deepest("read", *name, nested("a", DEEPEST, "[b]", "=1", "", ""), QS_OK);
    deepest("parse", "", nested("a", DEEPEST, "[b]", "=1", "", ""), QS_OK);
    deepest("get", nested("a", DEEPEST, "[b]", "", "", ""), nested("a", DEEPEST, "[b]", "=1", "", ""), QS_OK);
    for (size_t i = 0; i < sizeof shapes / sizeof shapes[0]; i++) {
        const struct shape *it = &shapes[i];
        deepest("read", nested("", DEEPEST_SHAPE - 1, it->open, "u8", it->close, ""), nested(it->key, DEEPEST_SHAPE - 2, it->segment, "=1", "", ""), QS_OK);
        deepest("read", nested("", DEEPEST_SHAPE - 1, it->open, "u8", it->close, ""), nested(it->key, DEEPEST_SHAPE - 2, it->segment, "=x", "", ""), QS_MISMATCH);
        for (const char **name = (const char *[]){"explain", "fields", NULL}; *name != NULL; name++)
            deepest(*name, nested("", DEEPEST_SHAPE - 1, it->open, "u8", it->close, ""), nested(it->key, DEEPEST_SHAPE - 2, it->segment, "=x", "", ""), QS_OK);
    }
    deepest("write", "", nested("", DEEPEST, "{\"a\":", "1", "}", ""), QS_OK);
    deepest("write", "", nested("", DEEPEST_JSON - 1, "{\"a\":", "1", "}", ""), QS_TOO_DEEP);
    deepest("write", "", nested("", DEEPEST_JSON, "[", "1", "]", ""), QS_TOO_DEEP);
    return NULL;
}

int main(int count, char **words) {
    pthread_attr_t attributes;
    pthread_t thread;
    FILE *file = count == 3 ? fopen(words[2], "r") : NULL;
    if (file == NULL || pthread_attr_init(&attributes) != 0 || pthread_attr_setstacksize(&attributes, strtoul(words[1], NULL, 10) * 1024) != 0 ||
        pthread_create(&thread, &attributes, calls, file) != 0)
        return 2;
    pthread_join(thread, NULL);
    return wrong != 0;
}
