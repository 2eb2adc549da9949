/* Races qs_get against a loop by hand on flat querystrings, and prints a row for each: the call's time, divided by the loop's. With --quick it
 * compares what they find alone. */
#include <serde_qs.h>
#include <stdio.h>
#include <string.h>
#include <time.h>

enum { ROUNDS = 21, MOST = 32768 };

static int digit(char sign) {
    return sign >= '0' && sign <= '9' ? sign - '0' : (sign | 32) >= 'a' && (sign | 32) <= 'f' ? (sign | 32) - 'a' + 10 : -1;
}

/* Decodes what stands before `end`, and returns its length. */
static size_t decode(const char *at, const char *end, char *out) {
    char *to = out;
    for (; at < end; at++) {
        if (*at == '%' && end - at > 2 && digit(at[1]) >= 0 && digit(at[2]) >= 0) {
            *to++ = (char)(digit(at[1]) * 16 + digit(at[2]));
            at += 2;
        } else {
            *to++ = *at == '+' ? ' ' : *at;
        }
    }
    return (size_t)(to - out);
}

/* Finds the last value of a name without escapes, as a program does that has no library, and returns its length. */
static size_t by_hand(const char *query, const char *name, char *out) {
    size_t name_len = strlen(name), len = 0;
    for (const char *at = query, *end; *at != '\0'; at = *end == '&' ? end + 1 : end) {
        end = at + strcspn(at, "&");
        if (strncmp(at, name, name_len) == 0 && at[name_len] == '=')
            len = decode(at + name_len + 1, end, out);
    }
    return len;
}

static size_t by_call(const char *query, const char *name, char *out) {
    qs_answer answer;
    uint32_t status =
        qs_get(&qs_default, (const uint8_t *)name, strlen(name), (const uint8_t *)query, strlen(query), (uint8_t *)out, MOST, &answer);
    return status == QS_OK ? answer.len : 0;
}

typedef size_t find(const char *query, const char *name, char *out);

static double seconds(find *find, const char *query, const char *name, int times) {
    static char out[MOST];
    clock_t began = clock();
    for (int at = 0; at < times; at++)
        find(query, name, out);
    return (double)(clock() - began) / CLOCKS_PER_SEC;
}

static void race(const char *query, const char *name, int count) {
    double ours = 1e9, other = 1e9;
    for (int round = 0; round < ROUNDS; round++) {
        double time = seconds(by_call, query, name, 100000 / count);
        ours = time < ours ? time : ours;
        time = seconds(by_hand, query, name, 100000 / count);
        other = time < other ? time : other;
    }
    printf("| C, the last value of %d pairs | %.2f |\n", count, ours / other);
}

int main(int arguments, char **words) {
    static char query[MOST], name[16], found[MOST], wanted[MOST];
    for (int count = 1; count <= 1000; count *= 10) {
        size_t len = 0;
        for (int at = 0; at < count; at++)
            len += (size_t)sprintf(query + len, "%sname%d=some+value", at > 0 ? "&" : "", at);
        sprintf(name, "name%d", count - 1);
        size_t wanted_len = by_hand(query, name, wanted);
        if (by_call(query, name, found) != wanted_len || memcmp(found, wanted, wanted_len) != 0) {
            puts("  FAILED: the value of a name");
            return 1;
        }
        if (arguments < 2 || strcmp(words[1], "--quick") != 0)
            race(query, name, count);
    }
    return 0;
}
