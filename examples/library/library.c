/* Tries what the C library has in the sandbox, a line for each thing: `ok`, or what went wrong. It exits with how many went wrong. */
#include "argdata.h"

#include <errno.h>
#include <fcntl.h>
#include <math.h>
#include <setjmp.h>
#include <stdbool.h>
#include <stdio.h>
#include <stdlib.h>
#include <string.h>
#include <sys/stat.h>
#include <sys/times.h>
#include <unistd.h>

static int failed;

static void tell(const char *what, bool is_right)
{
    printf("%s: %s\n", what, is_right ? "ok" : "WRONG");
    failed += !is_right;
}

static void write_text(const char *path, const char *mode, const char *text)
{
    FILE *file = fopen(path, mode);
    if (file == NULL || fputs(text, file) == EOF || fclose(file) != 0)
        tell(path, false);
}

static bool has_text(const char *path, const char *wanted)
{
    char text[100] = "";
    FILE *file = fopen(path, "r");
    if (file == NULL)
        return false;
    size_t length = fread(text, 1, sizeof text - 1, file);
    text[length] = '\0';
    return fclose(file) == 0 && strcmp(text, wanted) == 0;
}

static bool refuses(int answer, int error)
{
    return answer == -1 && errno == error;
}

static void try_files(void)
{
    struct stat status;
    write_text("data/a", "w", "one\n");
    write_text("/data/a", "a", "two\n");
    tell("write, append and read", has_text("./data//a", "one\ntwo\n"));
    tell("stat", stat("data/a", &status) == 0 && S_ISREG(status.st_mode) && status.st_size == 8 && status.st_nlink == 1);
    tell("stat of a directory", stat("data", &status) == 0 && S_ISDIR(status.st_mode));
    tell("rename", rename("data/a", "data/b") == 0 && has_text("data/b", "one\ntwo\n"));
    tell("no such file", refuses(open("data/a", O_RDONLY), ENOENT));
    tell("create what is there", refuses(open("data/b", O_RDWR | O_CREAT | O_EXCL, 0600), EEXIST));
    tell("mkdir", mkdir("data/d", 0700) == 0 && refuses(mkdir("data/d", 0700), EEXIST));
    tell("rename into a directory", rename("data/b", "data/d/b") == 0);
    tell("rmdir of a full directory", refuses(rmdir("data/d"), ENOTEMPTY));
    tell("unlink and rmdir", unlink("data/d/b") == 0 && rmdir("data/d") == 0);
    tell("a second directory inside", has_text("/data/inner/c", "c\n"));
    tell("a path in no directory", refuses(open("/etc/passwd", O_RDONLY), EACCES));
    tell("a name that only begins the same", refuses(open("/database", O_RDONLY), EACCES));
    tell("a path that leads outside", refuses(open("/data/../inner/c", O_RDONLY), EACCES));
    tell("an empty path", refuses(open("", O_RDONLY), ENOENT));
}

static void try_offsets(void)
{
    char bytes[4] = "";
    struct stat status;
    int fd = open("data/seek", O_RDWR | O_CREAT | O_TRUNC, 0600);
    tell("write and lseek", write(fd, "abcdef", 6) == 6 && lseek(fd, -4, SEEK_END) == 2 && lseek(fd, 1, SEEK_CUR) == 3);
    tell("read at the offset", read(fd, bytes, 3) == 3 && memcmp(bytes, "def", 3) == 0 && read(fd, bytes, 3) == 0);
    tell("ftruncate and fstat", ftruncate(fd, 2) == 0 && fstat(fd, &status) == 0 && status.st_size == 2);
    tell("an offset below 0", refuses((int)lseek(fd, -1, SEEK_SET), EINVAL));
    tell("close twice", close(fd) == 0 && refuses(close(fd), EBADF));
    tell("isatty", isatty(1) == 0 && errno == ENOTTY && isatty(fd) == 0);

    FILE *file = fopen("data/seek", "r+");
    tell("fseek, ungetc and ftell", fseek(file, 1, SEEK_SET) == 0 && getc(file) == 'b' && ungetc('B', file) == 'B'
         && getc(file) == 'B' && getc(file) == EOF && feof(file) && ftell(file) == 2);
    fclose(file);

    file = fopen("data", "r");
    tell("a directory that is read", getc(file) == EOF && ferror(file) && !feof(file));
    fclose(file);
    file = fopen("data/seek", "r");
    tell("a file that is written though it is open to read", fputs("x", file) == EOF || fflush(file) == EOF);
    fclose(file);
}

static void try_memory(void)
{
    char *big = malloc(2000000);
    char *zeros = calloc(1000, 1000);
    tell("malloc and calloc", big != NULL && zeros != NULL && zeros[999999] == 0);
    memset(big, 7, 2000000);
    big = realloc(big, 3000000);
    tell("realloc", big != NULL && big[0] == 7 && big[1999999] == 7);
    free(zeros);
    free(big);
    /* Volatile, so that the compiler leaves the calls as they are. */
    void *volatile huge = malloc(400000000);
    tell("more memory than there is", huge == NULL && errno == ENOMEM);
    void *volatile again = malloc(1000);
    tell("malloc behind that", again != NULL);
    free(again);
}

static int compare(const void *left, const void *right)
{
    return strcmp(*(const char *const *)left, *(const char *const *)right);
}

static void try_texts(void)
{
    char text[60];
    const char *words[] = {"pear", "apple", "plum"};
    qsort(words, 3, sizeof words[0], compare);
    tell("qsort", strcmp(words[0], "apple") == 0 && strcmp(words[2], "plum") == 0);
    snprintf(text, sizeof text, "%05d %-4s| %x %.3f %lld", 42, "ab", 255, 2.5, 1234567890123LL);
    tell("snprintf", strcmp(text, "00042 ab  | ff 2.500 1234567890123") == 0);
    const char *volatile hexadecimal = "-0x1f", *volatile decimal = "1.25e2";
    volatile double square = 2.25, two = 2.0;
    tell("strtol and strtod", strtol(hexadecimal, NULL, 0) == -31 && strtod(decimal, NULL) == 125.0);
    tell("sqrt and pow", sqrt(square) == 1.5 && pow(two, 10.0) == 1024.0);
    tell("strtok and strstr", strcmp(strtok(strcpy(text, "a b"), " "), "a") == 0 && strstr(hexadecimal, "x1") == hexadecimal + 2);
    tell("strerror", strcmp(strerror(ENOENT), "No such file or directory") == 0);
}

static void try_the_rest(int argc, char **argv)
{
    jmp_buf place;
    char line[10] = "";
    tell("argv", argc == 3 && strcmp(argv[0], "library") == 0 && strcmp(argv[2], "two words") == 0 && argv[3] == NULL);
    tell("fgets of standard input", fgets(line, sizeof line, stdin) != NULL && strcmp(line, "input\n") == 0);
    tell("the end of standard input", fgets(line, sizeof line, stdin) == NULL && feof(stdin));
    tell("setjmp", setjmp(place) == 1 || (longjmp(place, 1), false));
    tell("fprintf of standard error", fprintf(stderr, "a line of standard error\n") == 25);
    /* Left open: the exit writes what is in the first one's buffer, and doesn't set back the offset of the second, for which it has no
       right. */
    FILE *left = fopen("data/left", "w");
    tell("fprintf of a file", fprintf(left, "%d\n", 12) == 3);
    FILE *read_last = fopen("/data/inner/c", "r");
    tell("a file that is only read", getc(read_last) == 'c');
}

#define VALUE(text) &(argdata_t){(const uint8_t *)text, sizeof text - 1}

static bool is_integer(const argdata_t *value, int64_t wanted)
{
    int64_t number;
    return argdata_get_int(value, &number) && number == wanted;
}

static bool is_text(const argdata_t *value, const char *wanted)
{
    const char *text;
    size_t length;
    return argdata_get_str(value, &text, &length) && length == strlen(wanted) && strcmp(text, wanted) == 0;
}

static void try_argument_data(void)
{
    int64_t number;
    bool truth = false;
    cloudabi_fd_t fd;
    const char *text;
    size_t length;
    argdata_rest_t rest;
    argdata_t key, item;
    tell("integers", is_integer(VALUE("\5"), 0) && is_integer(VALUE("\5\x7f"), 127) && is_integer(VALUE("\5\x80"), -128)
         && is_integer(VALUE("\5\0\x80"), 128) && is_integer(VALUE("\5\x80\0\0\0\0\0\0\0"), INT64_MIN));
    tell("an integer that doesn't fit", !argdata_get_int(VALUE("\5\0\xff\xff\xff\xff\xff\xff\xff\xff"), &number));
    tell("bools", argdata_get_bool(VALUE("\2\1"), &truth) && truth && argdata_get_bool(VALUE("\2"), &truth) && !truth
         && !argdata_get_bool(VALUE("\2\2"), &truth));
    tell("descriptors", argdata_get_fd(VALUE("\3\1\2\3\4"), &fd) && fd == 0x01020304 && !argdata_get_fd(VALUE("\3\1\2"), &fd));
    tell("texts", is_text(VALUE("\10\0"), "") && is_text(VALUE("\10ab\0"), "ab")
         && !argdata_get_str(VALUE("\10ab"), &text, &length) && !argdata_get_str(VALUE("\10a\0b\0"), &text, &length));
    tell("a sequence", argdata_seq_begin(VALUE("\7\x80\x81\5"), &rest) && argdata_seq_next(&rest, &item) && item.length == 0
         && argdata_seq_next(&rest, &item) && is_integer(&item, 0) && !argdata_seq_next(&rest, &item));
    tell("a field over its end", argdata_seq_begin(VALUE("\7\x83\5"), &rest) && !argdata_seq_next(&rest, &item));
    tell("a length without an end", argdata_seq_begin(VALUE("\7\1\1"), &rest) && !argdata_seq_next(&rest, &item));
    tell("a map", argdata_map_begin(VALUE("\6\x83\10a\0\x82\5\1"), &rest) && argdata_map_next(&rest, &key, &item)
         && is_text(&key, "a") && is_integer(&item, 1) && !argdata_map_next(&rest, &key, &item));
    tell("a key", argdata_map_find(VALUE("\6\x83\10a\0\x82\5\1\x84\10ab\0\x82\5\2"), "ab", &item) && is_integer(&item, 2)
         && !argdata_map_find(VALUE("\6\x83\10a\0\x82\5\1"), "", &item));
    item = (argdata_t){NULL, 7};
    tell("no key", !argdata_map_find(VALUE("\6\x83\10a\0\x82\5\1"), "b", &item) && item.length == 7
         && !argdata_map_find(VALUE("\7"), "a", &item) && !argdata_map_find(VALUE(""), "a", &item));
    tell("a value of another type", !argdata_map_begin(VALUE("\7"), &rest) && !argdata_get_int(VALUE("\2"), &number)
         && !argdata_get_int(VALUE(""), &number));
}

static void at_exit(void)
{
    printf("atexit: ok\n");
}

__attribute__((constructor)) static void at_start(void)
{
    printf("constructor: ok\n");
}

int main(int argc, char **argv)
{
    atexit(at_exit);
    try_files();
    try_offsets();
    try_memory();
    try_texts();
    try_argument_data();
    try_the_rest(argc, argv);
    return failed;
}
