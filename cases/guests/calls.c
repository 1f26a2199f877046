/*
 * Makes the calls of a script, and compares each answer with what the script wants. docs/CASES.md says how scripts are written.
 *
 * The argument data has the script's text ("calls"), the number of its first line in its file ("line") and the descriptor to
 * which differences are written ("output"). Row k is the run's k-th call, so no call is made but the rows' own, and differences
 * are written behind the last one. It exits with 0 where nothing differs, with 1 where something does, and with 2 where a row
 * can't be read.
 */
#include "argdata.h"
#include "calls.h"

#define LENGTH(array) (sizeof(array) / sizeof(array)[0])

void *memset(void *to, int byte, size_t length);
extern const char _start[];

/* Bytes, of which there may be more while there is room. */
struct bytes {
    uint8_t *start;
    size_t room, length;
};

static uint8_t report_room[262144], arena_room[262144], wanted_room[131072];
static struct bytes report = {report_room, sizeof report_room, 0}; /* what is reported of differences */
static struct bytes arena = {arena_room, sizeof arena_room, 0};    /* what the arguments of a row place in memory */
static struct bytes wanted = {wanted_room, sizeof wanted_room, 0}; /* what the row's call must write in the output */

/* The output, on pages of its own. It is zero before each call. */
static uint64_t output[16384] __attribute__((aligned(4096)));

static cloudabi_fd_t report_fd;
static bool has_differed;

/* The row that is read: its line, and what is left of it. */
static uint64_t line;
static const char *at, *end;

/* The widths of the fields of the structure that the output must be, if it is one; a negative one is that of bytes between fields. */
static const int8_t *wanted_fields;
static const int8_t filestat_fields[] = {-8, 8, 1, -3, 4, 8, 8, 8, 8, 0}, fdstat_fields[] = {1, -1, 2, -4, 8, 8, 0};

/* Its registers: a0 to a7, how many of them arguments filled, and what they must be behind the call. */
static uint64_t registers[8], wanted_registers[8];
static size_t filled;

static cloudabi_iovec_t ranges[2048];
static size_t ranges_end; /* the place in the output behind the last range */
static size_t fds_room;   /* how many descriptors there is room for behind a recv_out */

#define RECV_OUT_SIZE 24

/* Telling. */

static void tell_byte(uint8_t byte)
{
    if (report.length < report.room)
        report.start[report.length++] = byte;
}

static void tell(const char *text)
{
    while (*text != '\0')
        tell_byte((uint8_t)*text++);
}

static void tell_number(uint64_t number)
{
    if (number >= 10)
        tell_number(number / 10);
    tell_byte((uint8_t)('0' + number % 10));
}

static void tell_error(uint64_t error)
{
    for (size_t i = 0; i < LENGTH(errors); ++i) {
        if (errors[i].value == error) {
            tell(errors[i].name + 1);
            return;
        }
    }
    tell("error ");
    tell_number(error);
}

/* Only the first 80 bytes. */
static void tell_bytes(const uint8_t *bytes, size_t length)
{
    tell("\"");
    for (size_t i = 0; i < length && i < 80; ++i) {
        if (bytes[i] == '\n') {
            tell("\\n");
        } else if (bytes[i] < ' ' || bytes[i] > '~') {
            tell("\\x");
            tell_byte((uint8_t)"0123456789ABCDEF"[bytes[i] >> 4]);
            tell_byte((uint8_t)"0123456789ABCDEF"[bytes[i] & 15]);
        } else {
            if (bytes[i] == '"' || bytes[i] == '\\')
                tell("\\");
            tell_byte(bytes[i]);
        }
    }
    tell(length > 80 ? "\".." : "\"");
}

/* The numbers of a structure's fields. */
static void tell_fields(const uint8_t *bytes, const int8_t *widths)
{
    tell(widths == filestat_fields ? "stat" : "fdstat");
    for (; *widths != 0; bytes += *widths < 0 ? -*widths : *widths, ++widths) {
        uint64_t number = 0;
        for (int i = *widths; i-- > 0;)
            number = number << 8 | bytes[i];
        if (*widths > 0) {
            tell(" ");
            tell_number(number);
        }
    }
}

static void tell_output(const uint8_t *bytes, size_t length)
{
    if (wanted_fields != NULL && length == wanted.length)
        tell_fields(bytes, wanted_fields);
    else
        tell_bytes(bytes, length);
}

/* What stands before it in the output may not end with a line feed. */
static void begin_line(void)
{
    if (report.length == 0)
        tell("\n");
    tell_number(line);
    tell(": ");
}

static void write_report(void)
{
    size_t done = 0, count;
    if (report.length == report.room) {
        report.length -= 64;
        tell("..\nmore isn't told\n");
    }
    while (done < report.length) {
        size_t rest = report.length - done;
        cloudabi_iovec_t range = {report.start + done, rest < 4096 ? rest : 4096};
        if (cloudabi_sys_fd_write(report_fd, &range, 1, &count) != CLOUDABI_ESUCCESS || count == 0)
            break;
        done += count;
    }
    report.length = 0;
}

_Noreturn static void finish(uint32_t code)
{
    write_report();
    cloudabi_sys_proc_exit(code);
}

_Noreturn static void cannot_read(const char *why)
{
    begin_line();
    tell("cannot be read: ");
    tell(why);
    tell(", before `");
    for (const char *rest = at; rest < end && rest < at + 40; ++rest)
        tell_byte((uint8_t)*rest);
    tell("`\n");
    finish(2);
}

/* Reading what stands in a row. */

static bool stands(const char *text)
{
    const char *place = at;
    for (; *text != '\0'; ++text, ++place) {
        if (place == end || *place != *text)
            return false;
    }
    return true;
}

static bool skip(const char *text)
{
    if (!stands(text))
        return false;
    while (*text++ != '\0')
        ++at;
    return true;
}

static void want(const char *text, const char *why)
{
    if (!skip(text))
        cannot_read(why);
}

struct word {
    const char *start;
    size_t length;
};

static bool is_digit(char byte)
{
    return byte >= '0' && byte <= '9';
}

/* The digit's value, or 16 of what is none. */
static uint64_t digit_of(char byte)
{
    if (is_digit(byte))
        return (uint64_t)(byte - '0');
    if (byte >= 'a' && byte <= 'f')
        return (uint64_t)(byte - 'a' + 10);
    return byte >= 'A' && byte <= 'F' ? (uint64_t)(byte - 'A' + 10) : 16;
}

static struct word read_word(void)
{
    struct word word = {at, 0};
    while (at < end && (is_digit(*at) || *at == '_' || (*at >= 'a' && *at <= 'z') || (*at >= 'A' && *at <= 'Z')))
        ++at;
    word.length = (size_t)(at - word.start);
    return word;
}

static bool is(struct word word, const char *name)
{
    for (size_t i = 0; i < word.length; ++i) {
        if (name[i] == '\0' || name[i] != word.start[i])
            return false;
    }
    return name[word.length] == '\0';
}

static uint64_t read_digits(void)
{
    uint64_t base = skip("0x") ? 16 : 10, number = 0;
    struct word word = read_word();
    if (word.length == 0)
        cannot_read("a number is missing");
    for (size_t i = 0; i < word.length; ++i) {
        uint64_t digit = digit_of(word.start[i]);
        if (digit >= base)
            cannot_read("a number has a character that is no digit");
        if (number > (UINT64_MAX - digit) / base)
            cannot_read("a number has over 64 bits");
        number = number * base + digit;
    }
    return number;
}

static uint64_t read_name(void)
{
    struct word word = read_word();
    if (is(word, "output"))
        return CLOUDABI_ADDRESS(output);
    if (is(word, "code"))
        return CLOUDABI_ADDRESS(_start);
    for (size_t i = 0; i < LENGTH(numbers); ++i) {
        const char *name = numbers[i].name;
        bool is_right = is((struct word){name, 6}, "RIGHT_");
        if (is(word, name) || (is_right && is(word, name + 6)))
            return numbers[i].value;
    }
    for (size_t i = 0; i < LENGTH(errors); ++i) {
        if (is(word, errors[i].name))
            return errors[i].value;
    }
    at = word.start;
    cannot_read(word.length == 0 ? "a number is missing" : "a number has an unknown name");
}

static uint64_t read_term(void)
{
    if (skip("-"))
        return -read_digits();
    return at < end && is_digit(*at) ? read_digits() : read_name();
}

static uint64_t read_number(void)
{
    uint64_t number = read_term();
    for (;;) {
        if (skip("+"))
            number += read_term();
        else if (skip("|"))
            number |= read_term();
        else
            return number;
    }
}

static void put(struct bytes *to, uint8_t byte)
{
    if (to->length == to->room)
        cannot_read("texts or structures don't fit");
    to->start[to->length++] = byte;
}

static void put_number(struct bytes *to, uint64_t number, size_t width)
{
    if (width < 8 && number >> (8 * width) != 0)
        cannot_read("a number doesn't fit into its field");
    for (size_t i = 0; i < width; ++i)
        put(to, (uint8_t)(number >> (8 * i)));
}

static uint8_t read_escape(void)
{
    static const char *const escapes[] = {"\\n", "\\t", "\\0", "\\\"", "\\\\"};
    for (size_t i = 0; i < LENGTH(escapes); ++i) {
        if (skip(escapes[i]))
            return (uint8_t) "\n\t\0\"\\"[i];
    }
    if (!skip("\\x") || end - at < 2 || digit_of(at[0]) > 15 || digit_of(at[1]) > 15)
        cannot_read("an escape is unknown");
    at += 2;
    return (uint8_t)(digit_of(at[-2]) << 4 | digit_of(at[-1]));
}

/* Makes of the bytes from `start` on so many times these bytes. */
static void repeat(struct bytes *to, size_t start, uint64_t times)
{
    size_t length = to->length - start;
    if (times == 0)
        to->length = start;
    for (uint64_t i = 1; i < times && length > 0; ++i) {
        for (size_t j = 0; j < length; ++j)
            put(to, to->start[start + j]);
    }
}

/* Texts in quotes, repeated and joined. */
static void read_text(struct bytes *to)
{
    do {
        size_t start = to->length;
        want("\"", "bytes are missing");
        while (!skip("\"")) {
            if (at == end)
                cannot_read("a text has no end");
            put(to, *at == '\\' ? read_escape() : (uint8_t)*at++);
        }
        if (skip("*"))
            repeat(to, start, read_digits());
    } while (skip("+"));
}

static void read_piece(struct bytes *to)
{
    if (stands("\"")) {
        read_text(to);
        return;
    }
    want("u", "a piece is unknown");
    uint64_t bits = read_digits();
    if (bits != 8 && bits != 16 && bits != 32 && bits != 64)
        cannot_read("a piece is unknown");
    want(":", "a piece is unknown");
    put_number(to, read_number(), bits / 8);
}

static void read_pieces(struct bytes *to)
{
    want("<", "pieces are missing");
    if (skip(">"))
        return;
    do {
        read_piece(to);
    } while (skip(","));
    want(">", "pieces have no end");
}

/* The numbers of a structure's fields, by their widths in bytes. A negative width is that of bytes between fields. */
static void read_fields(struct bytes *to, const int8_t *widths, uint8_t between)
{
    bool is_first = true;
    for (; *widths != 0; ++widths) {
        for (int i = *widths; i < 0; ++i)
            put(to, between);
        if (*widths < 0)
            continue;
        if (!is_first)
            want(" ", "a field is missing");
        put_number(to, read_number(), (size_t)*widths);
        is_first = false;
    }
}

/* Reading arguments. */

static void fill(uint64_t value)
{
    if (filled == 6)
        cannot_read("there are too many arguments");
    registers[filled++] = value;
}

/* Begins a structure in the arena, and fills a register with its address. */
static void begin_structure(void)
{
    while (arena.length % 8 != 0)
        put(&arena, 0);
    fill(CLOUDABI_ADDRESS(arena.start + arena.length));
}

static void read_structure(const int8_t *widths)
{
    begin_structure();
    want("{", "a structure is missing");
    read_fields(&arena, widths, 0xff);
    want("}", "a structure has no end");
}

/* Bytes that are in memory, or aren't. */
static cloudabi_iovec_t read_place(void)
{
    cloudabi_iovec_t range;
    want("@", "an address is missing");
    range.address = (const void *)read_number();
    want(":", "a length is missing");
    range.length = read_number();
    return range;
}

static cloudabi_iovec_t read_bytes(void)
{
    if (stands("@"))
        return read_place();
    size_t start = arena.length;
    read_text(&arena);
    return (cloudabi_iovec_t){arena.start + start, arena.length - start};
}

static cloudabi_iovec_t read_room(void)
{
    if (stands("@"))
        return read_place();
    uint64_t start = ranges_end, length = read_number();
    if (skip(":")) {
        start = length;
        length = read_number();
    }
    if (start > sizeof output || length > sizeof output - start)
        cannot_read("a range doesn't fit into the output");
    ranges_end = start + length;
    return (cloudabi_iovec_t){(uint8_t *)output + start, length};
}

/* How many there are. */
static size_t read_ranges(cloudabi_iovec_t (*read_range)(void))
{
    size_t count = 0;
    want("[", "ranges are missing");
    if (!skip("]")) {
        do {
            if (count == LENGTH(ranges))
                cannot_read("there are too many ranges");
            ranges[count++] = read_range();
        } while (skip(","));
        want("]", "ranges have no end");
    }
    return count;
}

static size_t read_written(void)
{
    if (stands("["))
        return read_ranges(read_bytes);
    ranges[0] = read_bytes();
    return 1;
}

static void fill_ranges(size_t count)
{
    fill(CLOUDABI_ADDRESS(ranges));
    fill(count);
}

/* How many there are. */
static uint64_t read_descriptors(struct bytes *to)
{
    uint64_t count = 0;
    want("[", "descriptors are missing");
    if (!skip("]")) {
        do {
            put_number(to, read_number(), 4);
            ++count;
        } while (skip(","));
        want("]", "descriptors have no end");
    }
    return count;
}

static void read_descriptor_list(void)
{
    begin_structure();
    fill(read_descriptors(&arena));
}

/* A message, of which the ranges and the descriptors are placed already. */
static void put_message(size_t ranges_count, uint64_t fds, uint64_t fds_count)
{
    begin_structure();
    put_number(&arena, CLOUDABI_ADDRESS(ranges), 8);
    put_number(&arena, ranges_count, 8);
    put_number(&arena, fds, 8);
    put_number(&arena, fds_count, 8);
    put_number(&arena, read_number(), 2);
    for (size_t i = 0; i < 6; ++i)
        put(&arena, 0xff);
    want("}", "a message has no end");
}

/* A message to be sent: its bytes, its descriptors and its flags. */
static void read_sent(void)
{
    want("{", "a message is missing");
    size_t count = read_written();
    want(" ", "the descriptors are missing");
    while (arena.length % 4 != 0)
        put(&arena, 0);
    uint64_t fds = CLOUDABI_ADDRESS(arena.start + arena.length), fds_count = read_descriptors(&arena);
    want(" ", "the flags are missing");
    put_message(count, fds, fds_count);
}

/* Room for a message: for its bytes, for so many descriptors, and the flags. In the output stand recv_out, the descriptors, and the bytes
   behind them. The room for descriptors is read first, since where the bytes go depends on it. */
static void read_received(void)
{
    want("{", "room for a message is missing");
    uint64_t fds_count = read_number();
    want(" ", "the ranges are missing");
    fds_room = fds_count < 16 ? fds_count : 16;
    ranges_end = RECV_OUT_SIZE + 4 * fds_room;
    size_t count = read_ranges(read_room);
    want(" ", "the flags are missing");
    put_message(count, CLOUDABI_ADDRESS(output) + RECV_OUT_SIZE, fds_count);
}

/* A subscription: the name of its kind, its userdata, and its fields. All other bytes have bits. */
static void read_subscription(void)
{
    static const struct {
        const char *name;
        uint8_t kind;
        int8_t fields[10];
    } kinds[] = {
        {"clock ", CLOUDABI_EVENTTYPE_CLOCK, {-8, 4, -4, 8, 8, 2, -6, 0}},
        {"condvar ", CLOUDABI_EVENTTYPE_CONDVAR, {8, 8, 1, 1, -22, 0}},
        {"read ", CLOUDABI_EVENTTYPE_FD_READ, {4, -36, 0}},
        {"write ", CLOUDABI_EVENTTYPE_FD_WRITE, {4, -36, 0}},
        {"rdlock ", CLOUDABI_EVENTTYPE_LOCK_RDLOCK, {8, 1, -31, 0}},
        {"wrlock ", CLOUDABI_EVENTTYPE_LOCK_WRLOCK, {8, 1, -31, 0}},
        {"end ", CLOUDABI_EVENTTYPE_PROC_TERMINATE, {4, -36, 0}},
    };
    size_t which = 0;
    while (which < LENGTH(kinds) && !skip(kinds[which].name))
        ++which;
    if (which == LENGTH(kinds))
        cannot_read("a kind of subscription is unknown");
    put_number(&arena, read_number(), 8);
    put(&arena, kinds[which].kind);
    for (size_t i = 0; i < 7; ++i)
        put(&arena, 0xff);
    want(" ", "a field is missing");
    read_fields(&arena, kinds[which].fields, 0xff);
}

/* The subscriptions, the output, and how many there are. */
static void read_subscriptions(void)
{
    uint64_t count = 0;
    begin_structure();
    want("[", "subscriptions are missing");
    if (!skip("]")) {
        do {
            read_subscription();
            ++count;
        } while (skip(","));
        want("]", "subscriptions have no end");
    }
    fill(CLOUDABI_ADDRESS(output));
    fill(count);
}

static void read_text_argument(void)
{
    cloudabi_iovec_t range = read_bytes();
    fill(CLOUDABI_ADDRESS(range.address));
    fill(range.length);
}

static void read_argument(char kind)
{
    static const int8_t filestat[] = {-24, 8, 8, 8, -8, 0}, fdstat[] = {-2, 2, -4, 8, 8, 0};
    if (kind == 'o' || kind == 'b')
        fill(CLOUDABI_ADDRESS(output));
    if (kind == 'o')
        return;
    if (at == end || stands(" = "))
        cannot_read("an argument is missing");
    want(" ", "an argument, a space or ` = ` is missing");
    switch (kind) {
    case 't': read_text_argument(); break;
    case 'r': fill_ranges(read_ranges(read_room)); break;
    case 'w': fill_ranges(read_written()); break;
    case 's': read_structure(filestat); break;
    case 'f': read_structure(fdstat); break;
    case 'd': read_descriptor_list(); break;
    case 'm': read_sent(); break;
    case 'v': read_received(); break;
    case 'q': read_subscriptions(); break;
    case 'p':
        begin_structure();
        read_pieces(&arena);
        break;
    default: fill(read_number());
    }
}

/* An argument of a raw call: a number, or the address of bytes or of a structure. */
static void read_raw_argument(void)
{
    want(" ", "a space or ` = ` is missing");
    if (stands("\"")) {
        begin_structure();
        read_text(&arena);
    } else if (stands("<")) {
        begin_structure();
        read_pieces(&arena);
    } else {
        fill(read_number());
    }
}

/* Reads the call's name or number, which goes to a7, and its arguments. In a raw call a register that no argument fills is zero;
   in others it has bits that the call mustn't look at. */
static const struct call *read_call(void)
{
    static const struct call unknown = {"", 0, "", 0};
    const struct call *call = &unknown;
    bool is_number = at < end && (is_digit(*at) || *at == '-');
    uint64_t number = is_number ? read_term() : 0;
    struct word word = read_word();
    for (size_t i = 0; i < LENGTH(calls); ++i) {
        if (is_number ? calls[i].number == number : is(word, calls[i].name))
            call = &calls[i];
    }
    if (!is_number && call == &unknown) {
        at = word.start;
        cannot_read("a call has an unknown name");
    }
    bool is_raw = skip("!");
    if (is_number && !is_raw)
        cannot_read("a number of a call has no !");
    for (size_t i = 0; i < 7; ++i)
        registers[i] = is_raw ? 0 : UINT64_C(0x5555555555555555) + i;
    registers[7] = is_number ? number : call->number;
    if (!is_raw) {
        for (const char *kind = call->arguments; *kind != '\0'; ++kind)
            read_argument(*kind);
    } else {
        while (at < end && !stands(" = "))
            read_raw_argument();
    }
    return call;
}

/* Reading what the answer must be. */

static void read_entry(void)
{
    static const int8_t head[] = {8, 8, -4, 1, -3, 0};
    size_t start = wanted.length;
    want("{", "an entry is missing");
    read_fields(&wanted, head, 0);
    want(" ", "a name is missing");
    read_text(&wanted);
    size_t end_of_name = wanted.length;
    wanted.length = start + 16;
    put_number(&wanted, end_of_name - start - 24, 4);
    wanted.length = end_of_name;
    want("}", "an entry has no end");
}

static uint64_t read_error(void)
{
    struct word word = read_word();
    for (size_t i = 0; i < LENGTH(errors); ++i) {
        if (is(word, errors[i].name + 1))
            return errors[i].value;
    }
    at = word.start;
    cannot_read("an error has an unknown name");
}

/* An event: its userdata, its error, its kind, and the fields of its kind. */
static void read_event(void)
{
    static const int8_t of_end[] = {1, -3, 4, -8, 0}, of_channel[] = {8, 2, -6, 0};
    size_t start = wanted.length;
    put_number(&wanted, read_number(), 8);
    want(" ", "an error is missing");
    put_number(&wanted, read_error(), 2);
    want(" ", "a kind is missing");
    uint64_t kind = read_number();
    put_number(&wanted, kind, 1);
    while (wanted.length < start + 16)
        put(&wanted, 0);
    if (skip(" "))
        read_fields(&wanted, kind == CLOUDABI_EVENTTYPE_PROC_TERMINATE ? of_end : of_channel, 0);
    while (wanted.length < start + 32)
        put(&wanted, 0);
}

static void read_events(void)
{
    want("{", "an event is missing");
    do {
        read_event();
        want("}", "an event has no end");
    } while (skip("{"));
}

/* What was received: its bytes, the descriptors and the flags. */
static void read_message(void)
{
    size_t start = wanted.length, bytes = start + RECV_OUT_SIZE + 4 * fds_room;
    for (size_t i = start; i < bytes; ++i)
        put(&wanted, 0);
    read_text(&wanted);
    size_t end_of_bytes = wanted.length;
    want(" ", "descriptors are missing");
    wanted.length = start + RECV_OUT_SIZE;
    uint64_t count = read_descriptors(&wanted);
    if (count > fds_room)
        cannot_read("there is no room for so many descriptors");
    want(" ", "flags are missing");
    wanted.length = start;
    put_number(&wanted, end_of_bytes - bytes, 8);
    put_number(&wanted, count, 8);
    put_number(&wanted, read_number(), 2);
    wanted.length = end_of_bytes;
}

/* Reads bytes that the call must write, if such stand here. */
static bool read_output(void)
{
    wanted_fields = NULL;
    if (stands("\"")) {
        read_text(&wanted);
    } else if (skip("sent ")) {
        put_number(&wanted, read_number(), 8);
    } else if (skip("received ")) {
        read_message();
    } else if (stands("<")) {
        read_pieces(&wanted);
    } else if (stands("{")) {
        do {
            read_entry();
        } while (stands("{"));
    } else if (skip("events ")) {
        read_events();
    } else if (skip("stat ")) {
        wanted_fields = wanted.length == 0 ? filestat_fields : NULL;
        read_fields(&wanted, filestat_fields, 0);
    } else if (skip("fdstat ")) {
        wanted_fields = wanted.length == 0 ? fdstat_fields : NULL;
        read_fields(&wanted, fdstat_fields, 0);
    } else {
        return false;
    }
    return true;
}

static void read_answer(const struct call *call)
{
    uint64_t count = 0, parts = 0;
    want(" = ", "` = ` is missing");
    wanted_registers[0] = read_error();
    uint64_t results = wanted_registers[0] == CLOUDABI_ESUCCESS ? call->results : 0;
    while (skip(" ")) {
        if (wanted_registers[0] != CLOUDABI_ESUCCESS)
            cannot_read("a refusal has a result");
        if (read_output())
            ++parts;
        else if (parts == 0 && count < results)
            wanted_registers[++count] = read_number();
        else
            cannot_read("no further result may stand here");
    }
    if (count == 0 && results == 1 && parts > 0)
        wanted_registers[1] = wanted.length;
    else if (count != results)
        cannot_read("a result is missing");
    if (at < end)
        cannot_read("a result has more behind it");
}

/* Making calls, and comparing. */

/* Makes the call of the registers a0 to a7, and gives these registers as they are behind it. */
static void make_call(uint64_t values[8])
{
    __asm__ volatile(".irp i, 0, 1, 2, 3, 4, 5, 6, 7\n"
                     "ld a\\i, 8 * \\i(%0)\n"
                     ".endr\n"
                     "ecall\n"
                     ".irp i, 0, 1, 2, 3, 4, 5, 6, 7\n"
                     "sd a\\i, 8 * \\i(%0)\n"
                     ".endr"
                     : : "r"(values) : "a0", "a1", "a2", "a3", "a4", "a5", "a6", "a7", "memory");
}

/* The place behind the output's last byte that isn't zero. Eight words at once are looked at, since all are after each call. */
static size_t end_of_output(void)
{
    const uint64_t *word = output + LENGTH(output);
    while (word > output && (word[-1] | word[-2] | word[-3] | word[-4] | word[-5] | word[-6] | word[-7] | word[-8]) == 0)
        word -= 8;
    const uint8_t *byte = (const uint8_t *)word;
    while (byte > (const uint8_t *)output && byte[-1] == 0)
        --byte;
    return (size_t)(byte - (const uint8_t *)output);
}

/* The first place where the output isn't as wanted, or SIZE_MAX. */
static size_t first_difference(size_t length)
{
    for (size_t i = 0; i < length || i < wanted.length; ++i) {
        if (((const uint8_t *)output)[i] != (i < wanted.length ? wanted.start[i] : 0))
            return i;
    }
    return SIZE_MAX;
}

/* Reports an answer: its error, the registers that the other answer has otherwise, and the output, if that differs. */
static void tell_answer(const uint64_t *own, const uint64_t *other, const uint8_t *bytes, size_t length, bool differs)
{
    tell_error(own[0]);
    for (uint64_t i = 1; i < 8; ++i) {
        if (own[i] != other[i]) {
            tell(", a");
            tell_number(i);
            tell(" ");
            if (own[0] != CLOUDABI_ESUCCESS && own[i] == registers[i])
                tell("as it was");
            else
                tell_number(own[i]);
        }
    }
    if (differs) {
        tell(", output ");
        tell_output(bytes, length);
    }
}

static void compare(const uint64_t *came)
{
    size_t length = end_of_output(), place = first_difference(length);
    bool differs = place != SIZE_MAX;
    for (size_t i = 0; i < 8; ++i)
        differs |= came[i] != wanted_registers[i];
    if (differs) {
        has_differed = true;
        begin_line();
        tell("wanted ");
        tell_answer(wanted_registers, came, wanted.start, wanted.length, place != SIZE_MAX);
        tell(" / came ");
        tell_answer(came, wanted_registers, (const uint8_t *)output, length > wanted.length ? length : wanted.length,
                    place != SIZE_MAX);
        if (place != SIZE_MAX) {
            tell(", from byte ");
            tell_number(place);
        }
        tell("\n");
    }
    memset(output, 0, length);
}

/* Those that don't return where they succeed: of the signals only those that end the process. */
static bool may_end(void)
{
    uint64_t number = registers[7];
    uint32_t signal = (uint32_t)registers[0];
    if (number == 41)
        return signal != CLOUDABI_SIGCHLD && signal != CLOUDABI_SIGCONT && signal != CLOUDABI_SIGURG;
    return number == 38 || number == 39 || number == 47;
}

static void make_row(void)
{
    uint64_t came[8];
    arena.length = wanted.length = ranges_end = fds_room = filled = 0;
    wanted_fields = NULL;
    const struct call *call = read_call();
    bool is_last = at == end && may_end();
    for (size_t i = 0; i < 8; ++i)
        came[i] = wanted_registers[i] = registers[i];
    if (!is_last)
        read_answer(call);
    if (may_end())
        write_report();
    make_call(came);
    if (is_last || (may_end() && wanted_registers[0] == CLOUDABI_ESUCCESS)) {
        has_differed = true;
        begin_line();
        tell("wanted no answer / came ");
        tell_error(came[0]);
        tell("\n");
    } else {
        compare(came);
    }
}

void program_main(const argdata_t *arguments)
{
    argdata_t value;
    const char *text;
    size_t length;
    int64_t first_line, fd;
    if (!argdata_map_find(arguments, "calls", &value) || !argdata_get_str(&value, &text, &length)
        || !argdata_map_find(arguments, "line", &value) || !argdata_get_int(&value, &first_line)
        || !argdata_map_find(arguments, "output", &value) || !argdata_get_int(&value, &fd))
        cloudabi_sys_proc_exit(255);
    report_fd = (cloudabi_fd_t)fd;
    line = (uint64_t)first_line;
    for (const char *end_of_text = text + length; text < end_of_text; ++text, ++line) {
        at = text;
        while (text < end_of_text && *text != '\n')
            ++text;
        end = text;
        if (at < end && *at != '#')
            make_row();
    }
    finish(has_differed ? 1 : 0);
}
