/*
 * Argument data: the value that a launch file gives to a program, and that `proc_exec` gives to the next one. docs/ABI.md has
 * where it stands at the start, docs/LAUNCH.md what a launch file says. The names are those of CloudABI's library argdata.
 *
 * A value is its bytes, where they stand; nothing is copied. Any bytes may be read: what isn't encoded as it should is no value
 * of any type, and an end of its map or sequence.
 */
#ifndef ARGDATA_H
#define ARGDATA_H

#include "cloudabi.h"

#include <stdbool.h>

/* The bytes of one value. Null has none. */
typedef struct {
    const uint8_t *bytes;
    size_t length;
} argdata_t;

/* What is still to come of a map or a sequence. */
typedef argdata_t argdata_rest_t;

/* What each program has in place of `main`, unless it is linked with the C library. It exits with 0 where it returns. */
void program_main(const argdata_t *arguments);

/* Each gives the value and true where it is of the function's type. A text has a zero byte behind it, which `length` doesn't
   count; an integer is refused where it doesn't fit. */
bool argdata_get_bool(const argdata_t *value, bool *truth);
bool argdata_get_fd(const argdata_t *value, cloudabi_fd_t *fd);
bool argdata_get_int(const argdata_t *value, int64_t *number);
bool argdata_get_str(const argdata_t *value, const char **text, size_t *length);

/* The pairs of a map and the items of a sequence, in order: `begin` gives true where the value is one, and each `next` gives the
   next pair or item, and false where there is none left. */
bool argdata_map_begin(const argdata_t *value, argdata_rest_t *rest);
bool argdata_map_next(argdata_rest_t *rest, argdata_t *key, argdata_t *value);
bool argdata_seq_begin(const argdata_t *value, argdata_rest_t *rest);
bool argdata_seq_next(argdata_rest_t *rest, argdata_t *item);

/* The value of the map's first pair whose key is this text; false where there is none, and `value` stays. */
bool argdata_map_find(const argdata_t *map, const char *key, argdata_t *value);

/*
 * A value that is written, for `proc_exec`, into bytes of the caller's. A map or a sequence is begun, gets its keys and values or its
 * items one after another, and is ended. A descriptor is its place in the list that goes with the value, from 0.
 */
#define ARGDATA_MOST_DEPTH 64

typedef struct {
    uint8_t *bytes;
    size_t room, length;
    size_t begins[ARGDATA_MOST_DEPTH]; /* of the maps and sequences that aren't ended */
    size_t depth;
    bool is_lost; /* there was no room, or a map or sequence stood too deep */
} argdata_writer_t;

argdata_writer_t argdata_write(void *bytes, size_t room);
void argdata_begin_map(argdata_writer_t *writer);
void argdata_begin_seq(argdata_writer_t *writer);
void argdata_end(argdata_writer_t *writer);
void argdata_put_bool(argdata_writer_t *writer, bool truth);
void argdata_put_fd(argdata_writer_t *writer, cloudabi_fd_t place);
void argdata_put_int(argdata_writer_t *writer, int64_t number);
void argdata_put_null(argdata_writer_t *writer);
void argdata_put_str(argdata_writer_t *writer, const char *text, size_t length);

/* The value, where all of it was written. */
bool argdata_written(const argdata_writer_t *writer, argdata_t *value);

#endif
