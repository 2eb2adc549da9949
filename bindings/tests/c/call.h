/* A line of a table of calls: a call, its settings, a shape or a path, and a text, with tabs between them. The settings are `query`, `form`
 * or `web`, and words after a blank: `depth=N`, `empty` or `unindexed`, `reject`, `length=N`, `pairs=N` and `output=N`. */
#include <serde_qs.h>
#include <stdio.h>
#include <stdlib.h>
#include <string.h>

/* The next field of the line, which ends at a sign. */
static char *field(char **line, char sign) {
    char *begin = *line, *end = strchr(begin, sign);
    if (end == NULL)
        end = strchr(begin, '\0');
    *line = *end == '\0' ? end : end + 1;
    *end = '\0';
    return begin;
}

static qs_settings settings_of(char *words) {
    qs_settings settings = qs_default;
    while (*words != '\0') {
        const char *word = field(&words, ' ');
        if (strcmp(word, "web") == 0)
            settings = qs_web;
        else if (strcmp(word, "form") == 0)
            settings.form = true;
        else if (strcmp(word, "empty") == 0)
            settings.array_format = QS_EMPTY_INDEXED;
        else if (strcmp(word, "unindexed") == 0)
            settings.array_format = QS_UNINDEXED;
        else if (strcmp(word, "reject") == 0)
            settings.reject_duplicates = true;
        else if (strncmp(word, "depth=", 6) == 0)
            settings.max_depth = strtoul(word + 6, NULL, 10);
        else if (strncmp(word, "length=", 7) == 0)
            settings.max_length = strtoul(word + 7, NULL, 10);
        else if (strncmp(word, "pairs=", 6) == 0)
            settings.max_pairs = strtoul(word + 6, NULL, 10);
        else if (strncmp(word, "output=", 7) == 0)
            settings.max_output = strtoul(word + 7, NULL, 10);
    }
    return settings;
}

typedef struct {
    const char *name, *shape, *text;
    qs_settings settings;
} qs_call;

/* The call of a line, which is cut into its fields. */
static qs_call call_of(char *line) {
    qs_call call;
    line[strcspn(line, "\n")] = '\0';
    call.name = field(&line, '\t');
    call.settings = settings_of(field(&line, '\t'));
    call.shape = field(&line, '\t');
    call.text = field(&line, '\t');
    return call;
}

/* The bytes of a text; of the empty one the null pointer, which each call takes. */
static inline const uint8_t *bytes_of(const char *text, size_t len) {
    return len == 0 ? NULL : (const uint8_t *)text;
}

/* Makes the call with so many bytes of its shape and of its text. */
static inline uint32_t make_sized(const qs_call *call, size_t shape_len, size_t len, uint8_t *out, size_t size, qs_answer *answer) {
    const uint8_t *text = bytes_of(call->text, len), *shape = bytes_of(call->shape, shape_len);
    if (strcmp(call->name, "get") == 0)
        return qs_get(&call->settings, shape, shape_len, text, len, out, size, answer);
    if (strcmp(call->name, "parse") == 0)
        return qs_parse(&call->settings, text, len, out, size, answer);
    if (strcmp(call->name, "read") == 0)
        return qs_read(&call->settings, shape, shape_len, text, len, out, size, answer);
    if (strcmp(call->name, "explain") == 0)
        return qs_explain(&call->settings, shape, shape_len, text, len, out, size, answer);
    if (strcmp(call->name, "fields") == 0)
        return qs_explain_fields(&call->settings, shape, shape_len, text, len, out, size, answer);
    if (strcmp(call->name, "write") == 0)
        return qs_write(&call->settings, text, len, out, size, answer);
    if (strcmp(call->name, "encode") == 0)
        return qs_encode(call->settings.form, text, len, out, size, answer);
    return qs_decode(text, len, out, size, answer);
}

static inline uint32_t make(const qs_call *call, uint8_t *out, size_t size, qs_answer *answer) {
    return make_sized(call, strlen(call->shape), strlen(call->text), out, size, answer);
}

/* Prints a status, a position and a text, with `|` for a line feed. */
static inline void print_answer(uint32_t status, const qs_answer *answer, uint8_t *out) {
    for (size_t i = 0; i < answer->len; i++)
        out[i] = out[i] == '\n' ? '|' : out[i];
    printf("%u\t%zu\t%.*s\n", (unsigned)status, answer->position, (int)answer->len, out);
}
