/* The reader and the writer of argument data: a value is a tag and a body, and a field of a map or a sequence is a length and a value. */
#include "argdata.h"

enum { TAG_BOOL = 2, TAG_FD = 3, TAG_INT = 5, TAG_MAP = 6, TAG_SEQ = 7, TAG_STR = 8 };

static bool has_tag(const argdata_t *value, uint8_t tag)
{
    return value->length > 0 && value->bytes[0] == tag;
}

bool argdata_get_bool(const argdata_t *value, bool *truth)
{
    if (!has_tag(value, TAG_BOOL) || value->length > 2 || (value->length == 2 && value->bytes[1] != 1))
        return false;
    *truth = value->length == 2;
    return true;
}

/* A descriptor's number has four bytes, the highest first. */
bool argdata_get_fd(const argdata_t *value, cloudabi_fd_t *fd)
{
    if (!has_tag(value, TAG_FD) || value->length != 5)
        return false;
    *fd = 0;
    for (size_t i = 1; i < 5; ++i)
        *fd = *fd << 8 | value->bytes[i];
    return true;
}

/* An integer is in two's complement, the highest byte first; 0 has no byte. */
bool argdata_get_int(const argdata_t *value, int64_t *number)
{
    if (!has_tag(value, TAG_INT) || value->length > 9)
        return false;
    uint64_t bits = value->length > 1 && value->bytes[1] >= 0x80 ? UINT64_MAX : 0;
    for (size_t i = 1; i < value->length; ++i)
        bits = bits << 8 | value->bytes[i];
    *number = (int64_t)bits;
    return true;
}

bool argdata_get_str(const argdata_t *value, const char **text, size_t *length)
{
    if (!has_tag(value, TAG_STR) || value->length < 2)
        return false;
    for (size_t i = 1; i < value->length; ++i) {
        if ((value->bytes[i] == 0) != (i == value->length - 1))
            return false;
    }
    *text = (const char *)value->bytes + 1;
    *length = value->length - 2;
    return true;
}

static bool begin(const argdata_t *value, uint8_t tag, argdata_rest_t *rest)
{
    if (!has_tag(value, tag))
        return false;
    *rest = (argdata_rest_t){value->bytes + 1, value->length - 1};
    return true;
}

bool argdata_map_begin(const argdata_t *value, argdata_rest_t *rest)
{
    return begin(value, TAG_MAP, rest);
}

bool argdata_seq_begin(const argdata_t *value, argdata_rest_t *rest)
{
    return begin(value, TAG_SEQ, rest);
}

/* A length stands in groups of 7 bits, the highest first; bit 7 is set in the last one. */
bool argdata_seq_next(argdata_rest_t *rest, argdata_t *item)
{
    size_t length = 0, at = 0;
    bool is_last = false;
    while (!is_last) {
        if (at == rest->length || length > rest->length)
            return false;
        length = length << 7 | (rest->bytes[at] & 0x7f);
        is_last = rest->bytes[at] >= 0x80;
        ++at;
    }
    if (length > rest->length - at)
        return false;
    *item = (argdata_t){rest->bytes + at, length};
    *rest = (argdata_rest_t){item->bytes + length, rest->length - at - length};
    return true;
}

bool argdata_map_next(argdata_rest_t *rest, argdata_t *key, argdata_t *value)
{
    return argdata_seq_next(rest, key) && argdata_seq_next(rest, value);
}

static bool is_text(const argdata_t *value, const char *wanted)
{
    const char *text;
    size_t length;
    if (!argdata_get_str(value, &text, &length))
        return false;
    while (*text == *wanted && *text != '\0') {
        ++text;
        ++wanted;
    }
    return *text == *wanted;
}

bool argdata_map_find(const argdata_t *map, const char *key, argdata_t *value)
{
    argdata_rest_t rest;
    argdata_t name, found;
    if (!argdata_map_begin(map, &rest))
        return false;
    while (argdata_map_next(&rest, &name, &found)) {
        if (is_text(&name, key)) {
            *value = found;
            return true;
        }
    }
    return false;
}

/* The writer. */

argdata_writer_t argdata_write(void *bytes, size_t room)
{
    return (argdata_writer_t){.bytes = bytes, .room = room};
}

static void put_byte(argdata_writer_t *writer, uint8_t byte)
{
    if (writer->length < writer->room)
        writer->bytes[writer->length++] = byte;
    else
        writer->is_lost = true;
}

/* Makes so many bytes of room in front of what stands from `start` on. */
static void make_room(argdata_writer_t *writer, size_t start, size_t count)
{
    size_t end = writer->length;
    for (size_t i = 0; i < count; ++i)
        put_byte(writer, 0);
    for (size_t at = end; at > start && !writer->is_lost; --at)
        writer->bytes[at - 1 + count] = writer->bytes[at - 1];
}

/* Puts the length of what stands from `start` on in front of it, where it is a field of a map or a sequence. */
static void finish_value(argdata_writer_t *writer, size_t start)
{
    size_t length = writer->length - start, count = 1;
    if (writer->depth == 0 || writer->is_lost)
        return;
    for (size_t rest = length >> 7; rest != 0; rest >>= 7)
        ++count;
    make_room(writer, start, count);
    for (size_t i = 0; i < count && !writer->is_lost; ++i) {
        size_t group = length >> 7 * (count - 1 - i) & 0x7f;
        writer->bytes[start + i] = (uint8_t)(group | (i == count - 1 ? 0x80 : 0));
    }
}

static void begin_fields(argdata_writer_t *writer, uint8_t tag)
{
    if (writer->depth == ARGDATA_MOST_DEPTH)
        writer->is_lost = true;
    else
        writer->begins[writer->depth++] = writer->length;
    put_byte(writer, tag);
}

void argdata_begin_map(argdata_writer_t *writer)
{
    begin_fields(writer, TAG_MAP);
}

void argdata_begin_seq(argdata_writer_t *writer)
{
    begin_fields(writer, TAG_SEQ);
}

void argdata_end(argdata_writer_t *writer)
{
    if (writer->depth == 0)
        writer->is_lost = true;
    else
        finish_value(writer, writer->begins[--writer->depth]);
}

void argdata_put_bool(argdata_writer_t *writer, bool truth)
{
    size_t start = writer->length;
    put_byte(writer, TAG_BOOL);
    if (truth)
        put_byte(writer, 1);
    finish_value(writer, start);
}

void argdata_put_fd(argdata_writer_t *writer, cloudabi_fd_t place)
{
    size_t start = writer->length;
    put_byte(writer, TAG_FD);
    for (int i = 3; i >= 0; --i)
        put_byte(writer, (uint8_t)(place >> 8 * i));
    finish_value(writer, start);
}

/* In as few bytes as show its sign. */
void argdata_put_int(argdata_writer_t *writer, int64_t number)
{
    size_t start = writer->length;
    int count = number == 0 ? 0 : 8;
    put_byte(writer, TAG_INT);
    while (count > 1 && number >> (8 * count - 9) == (number < 0 ? -1 : 0))
        --count;
    for (int i = count - 1; i >= 0; --i)
        put_byte(writer, (uint8_t)(number >> 8 * i));
    finish_value(writer, start);
}

void argdata_put_null(argdata_writer_t *writer)
{
    finish_value(writer, writer->length);
}

void argdata_put_str(argdata_writer_t *writer, const char *text, size_t length)
{
    size_t start = writer->length;
    put_byte(writer, TAG_STR);
    for (size_t i = 0; i < length; ++i)
        put_byte(writer, (uint8_t)text[i]);
    put_byte(writer, 0);
    finish_value(writer, start);
}

bool argdata_written(const argdata_writer_t *writer, argdata_t *value)
{
    *value = (argdata_t){writer->bytes, writer->length};
    return writer->depth == 0 && !writer->is_lost;
}
