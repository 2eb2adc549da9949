/* Nested querystrings for C: get the value at a path, read a querystring into JSON, write JSON as a querystring, encode and decode.
 *
 * Each call takes its input, a buffer for its result and a qs_answer to fill, and returns a status. It keeps no memory and no pointer:
 * there is nothing to free, and concurrent calls share nothing.
 *
 * With QS_OK the first `len` bytes of `out` are the result, without a NUL after them. With QS_TOO_SMALL the result has `len` bytes, which
 * is more than `out_size`, and `out` is unchanged. Any other status is an error: `len` is the length of its text, which is at the front
 * of `out` if it fits there.
 *
 * A pointer with a size of 0 may be null, and no other pointer may. `out` must not overlap any other argument.
 *
 * LIBRARY.md describes the JSON and the notation of shapes. It is in docs in the repository, and is installed in share/doc/serde_qs. */
#ifndef SERDE_QS_H
#define SERDE_QS_H

#include <stdbool.h>
#include <stddef.h>
#include <stdint.h>
#include <string.h>

#ifdef __cplusplus
extern "C" {
#endif

/* The version of the library that this header belongs to, and the number of the notation of shapes. A later notation has a higher
 * number, and every shape of this one means the same in it. */
#define QS_VERSION_MAJOR 1
#define QS_VERSION_MINOR 1
#define QS_VERSION_PATCH 3
#define QS_NOTATION 1
#define QS_VERSION ((uint32_t)QS_VERSION_MAJOR << 24 | QS_VERSION_MINOR << 16 | QS_VERSION_PATCH << 8 | QS_NOTATION)

/* The statuses. */
enum {
    QS_OK = 0,
    QS_TOO_SMALL = 1,
    QS_OUT_OF_MEMORY = 2, /* an allocation failed; this error has no text */
    QS_BAD_SETTINGS = 3,  /* a number in the settings is too large */
    QS_PARSE_ERROR = 4,   /* the querystring is rejected, at `position` */
    QS_MISMATCH = 5,      /* the querystring doesn't fit the shape, the part at the path isn't a value, or two keys have one text */
    QS_NOT_UTF8 = 6,      /* a string that is read isn't UTF-8 */
    QS_BAD_SHAPE = 7,     /* the shape is rejected, at `position` */
    QS_BAD_JSON = 8,      /* the JSON is rejected, at `position` */
    QS_TOO_DEEP = 9,      /* a value nests deeper than `max_depth` */
    QS_TOO_LARGE = 10,    /* the querystring exceeds `max_length` or `max_pairs` */
    QS_TOO_LONG = 11,     /* the JSON exceeds `max_output` */
    QS_ABSENT = 12,       /* the path leads nowhere */
    QS_BAD_PATH = 13      /* the path isn't a key */
};

/* How the index of a list's element is written. */
enum {
    QS_INDEXED = 0,       /* a[0]=x&a[1]=y */
    QS_EMPTY_INDEXED = 1, /* a[]=x&a[]=y */
    QS_UNINDEXED = 2      /* a=x&a=y */
};

/* How a querystring is read and written. */
typedef struct {
    size_t max_depth;       /* levels of brackets after the first key, 100 at most */
    bool form;              /* true for form mode, where brackets may be encoded; false for query mode */
    uint8_t array_format;   /* QS_INDEXED, QS_EMPTY_INDEXED or QS_UNINDEXED */
    bool reject_duplicates; /* whether several values are an error if one is wanted; otherwise the last is taken */
    size_t max_length;      /* the most bytes of a querystring that is read; 0 for no limit */
    size_t max_pairs;       /* the most pairs (the pieces between `&`s) of a querystring that is read; 0 for no limit */
    size_t max_output;      /* the most bytes of the JSON that is returned; 0 for no limit */
    size_t reserved;        /* must be 0; a later version may give other numbers a meaning */
} qs_settings;

/* Query mode, without limits. */
static const qs_settings qs_default = {5, false, QS_INDEXED, false, 0, 0, 0, 0};

/* For the forms and queries of strangers: form mode, where browsers may encode brackets; at most 1 MiB and 4,096 pairs. */
static const qs_settings qs_web = {5, true, QS_INDEXED, false, 1048576, 4096, 0, 0};

/* What a call returns in addition to its status. */
typedef struct {
    size_t len;      /* the length of the result, or of an error's text */
    size_t position; /* the error's position in the querystring, the shape or the JSON */
} qs_answer;

/* Gets the decoded value at a path of the querystring, such as user[name], or ids[0] for the first item of a list. The path is a key,
 * escaped as in the querystring. The value may hold any bytes. A key without a value, as in `a`, gives an empty result. Several values, as
 * in `a=1&a=2`, give the last, unless the settings reject them. */
uint32_t qs_get(const qs_settings *settings, const uint8_t *path, size_t path_size, const uint8_t *input, size_t input_size,
                uint8_t *out, size_t out_size, qs_answer *answer);

/* Reads the querystring into JSON, whatever it holds. A list is an array, and so is a map whose keys are 0, 1 and so on; any other map is
 * an object. A key alone is `null`, and no pairs at all are `{}`. A value without a key is under the empty name. */
uint32_t qs_parse(const qs_settings *settings, const uint8_t *input, size_t input_size, uint8_t *out, size_t out_size,
                  qs_answer *answer);

/* Reads the querystring into JSON by a shape, such as {user: {name: text}}. */
uint32_t qs_read(const qs_settings *settings, const uint8_t *shape, size_t shape_size, const uint8_t *input, size_t input_size,
                 uint8_t *out, size_t out_size, qs_answer *answer);

/* Explains in one line why a shape doesn't read the querystring: `user[age]: expected u8, found the text "300"`. The line begins with the
 * path to the wrong part, and `position` is the path's length. The path is empty if the querystring can't be parsed or is wrong as a
 * whole. The line is empty if the shape reads the querystring. */
uint32_t qs_explain(const qs_settings *settings, const uint8_t *shape, size_t shape_size, const uint8_t *input, size_t input_size,
                    uint8_t *out, size_t out_size, qs_answer *answer);

/* Explains each field of a struct that a shape doesn't read, a line each, for a page that shows an error beside each of its fields. A line
 * has the form of one of qs_explain, and a line feed after it. Its path is what precedes its first blank, without the colon; if there is no
 * colon, the line has no path: the querystring is wrong as a whole. That line is the first. There is none if the shape reads the
 * querystring. */
uint32_t qs_explain_fields(const qs_settings *settings, const uint8_t *shape, size_t shape_size, const uint8_t *input, size_t input_size,
                           uint8_t *out, size_t out_size, qs_answer *answer);

/* Writes the JSON as a querystring. */
uint32_t qs_write(const qs_settings *settings, const uint8_t *json, size_t json_size, uint8_t *out, size_t out_size,
                  qs_answer *answer);

/* Encodes the bytes for form mode or query mode. */
uint32_t qs_encode(bool form, const uint8_t *bytes, size_t bytes_size, uint8_t *out, size_t out_size, qs_answer *answer);

/* Decodes the bytes: `+` is a space, and `%` with two hexadecimal digits is one byte. */
uint32_t qs_decode(const uint8_t *bytes, size_t bytes_size, uint8_t *out, size_t out_size, qs_answer *answer);

/* Returns QS_VERSION of the library. */
uint32_t qs_version(void);

/* These pass a pointer and a size: QS_TEXT("a=1") of a string literal, and of nothing else; QS_TEXT_OF(string) of a string that ends in a
 * NUL, where `string` is evaluated twice; QS_ROOM(array) of an array, and not of a pointer. */
#define QS_TEXT(text) (const uint8_t *)("" text ""), sizeof("" text "") - 1
#define QS_TEXT_OF(string) (const uint8_t *)(string), strlen(string)
#define QS_ROOM(array) (uint8_t *)(array), sizeof(array)

#ifdef __cplusplus
}
#endif

#endif
