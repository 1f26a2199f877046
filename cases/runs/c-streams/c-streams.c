/* Streams: opening, bytes, lines, places, errors, and streams in memory. */
#include "check.h"

#include <fcntl.h>
#include <stdio_ext.h>
#include <stdlib.h>
#include <sys/stat.h>
#include <unistd.h>

static void write_file(const char *path, const char *text)
{
    FILE *file = fopen(path, "w");
    CHECK(file != NULL && fputs(text, file) >= 0 && fclose(file) == 0);
}

static void check_file(int line, const char *path, const char *wanted)
{
    char bytes[256] = "";
    FILE *file = fopen(path, "r");
    size_t count = file == NULL ? 0 : fread(bytes, 1, sizeof bytes - 1, file);
    bytes[count] = '\0';
    if (file != NULL)
        fclose(file);
    check_text(line, bytes, wanted);
}

#define HAS(path, text) check_file(__LINE__, path, text)

static void modes(void)
{
    FILE *file;
    write_file("modes", "one");
    CHECK(fopen("absent", "r") == NULL && errno == ENOENT);
    CHECK(fopen("modes", "z") == NULL && errno == EINVAL);
    CHECK(fopen("modes", "wx") == NULL && errno == EEXIST);
    HAS("modes", "one");
    CHECK((file = fopen("modes", "a")) != NULL && fputs("two", file) >= 0 && ftell(file) == 6 && fclose(file) == 0);
    HAS("modes", "onetwo");
    CHECK((file = fopen("modes", "r+")) != NULL && fgetc(file) == 'o' && fseek(file, 0, SEEK_CUR) == 0 && fputc('N', file) == 'N');
    CHECK(fseek(file, 0, SEEK_CUR) == 0 && fgetc(file) == 'e' && fclose(file) == 0);
    HAS("modes", "oNetwo");
    CHECK((file = fopen("modes", "a+")) != NULL && fgetc(file) == 'o' && fseek(file, 0, SEEK_SET) == 0 && fputs("!", file) >= 0);
    CHECK(fclose(file) == 0);
    HAS("modes", "oNetwo!");
    CHECK((file = fopen("modes", "w+")) != NULL && fputs("abc", file) >= 0 && (rewind(file), fgetc(file)) == 'a' && fclose(file) == 0);
    CHECK((file = fopen("new", "wx")) != NULL && fclose(file) == 0 && unlink("new") == 0);
}

static void lines(void)
{
    char line[16], *grown = NULL;
    size_t capacity = 0;
    write_file("lines", "one\n\ntwo");
    FILE *file = fopen("lines", "r");
    CHECK(fgets(line, sizeof line, file) == line && strcmp(line, "one\n") == 0);
    CHECK(fgets(line, sizeof line, file) == line && strcmp(line, "\n") == 0);
    CHECK(fgets(line, sizeof line, file) == line && strcmp(line, "two") == 0 && feof(file));
    CHECK(fgets(line, sizeof line, file) == NULL && feof(file) && !ferror(file));
    rewind(file);
    CHECK(fgets(line, 3, file) == line && strcmp(line, "on") == 0 && fgets(line, 3, file) == line && strcmp(line, "e\n") == 0);
    rewind(file);
    CHECK(getline(&grown, &capacity, file) == 4 && strcmp(grown, "one\n") == 0 && capacity >= 5);
    CHECK(getdelim(&grown, &capacity, 'w', file) == 3 && strcmp(grown, "\ntw") == 0);
    CHECK(getline(&grown, &capacity, file) == 1 && strcmp(grown, "o") == 0 && getline(&grown, &capacity, file) == -1 && feof(file));
    free(grown);
    fclose(file);
}

static void bytes(void)
{
    char some[8];
    write_file("bytes", "0123456789");
    FILE *file = fopen("bytes", "r");
    CHECK(fread(some, 2, 3, file) == 3 && memcmp(some, "012345", 6) == 0 && fread(some, 3, 3, file) == 1 && feof(file));
    clearerr(file);
    CHECK(!feof(file) && fgetc(file) == EOF && feof(file));
    CHECK(ungetc('x', file) == 'x' && !feof(file) && getc(file) == 'x' && ungetc(EOF, file) == EOF);
    rewind(file);
    CHECK(getc(file) == '0' && ungetc('z', file) == 'z' && ftell(file) == 0 && getc(file) == 'z' && getc(file) == '1');
    CHECK(fread(some, 0, 5, file) == 0 && fwrite(some, 1, 1, file) == 0 && ferror(file));
    fclose(file);
    file = fopen("bytes", "w");
    CHECK(fwrite("abcdef", 2, 3, file) == 3 && fputc('g', file) == 'g' && putc(255, file) == 255 && fflush(file) == 0);
    CHECK(fgetc(file) == EOF && ferror(file) && !feof(file));
    fclose(file);
    HAS("bytes", "abcdefg\xff");
}

static void places(void)
{
    fpos_t place;
    write_file("places", "0123456789");
    FILE *file = fopen("places", "r+");
    CHECK(fseek(file, 5, SEEK_SET) == 0 && getc(file) == '5' && ftell(file) == 6);
    CHECK(fgetpos(file, &place) == 0 && fseek(file, -1, SEEK_END) == 0 && getc(file) == '9' && fsetpos(file, &place) == 0 && getc(file) == '6');
    CHECK(fseek(file, -2, SEEK_CUR) == 0 && getc(file) == '5' && fseeko(file, 20, SEEK_SET) == 0 && ftello(file) == 20);
    CHECK(fseek(file, -1, SEEK_SET) == -1 && errno == EINVAL);
    CHECK(fputs("x", file) >= 0 && ftell(file) == 21 && fclose(file) == 0);
    struct stat status;
    CHECK(stat("places", &status) == 0 && status.st_size == 21);
}

static void large(void)
{
    static char block[100000], back[100000];
    for (size_t at = 0; at < sizeof block; ++at)
        block[at] = (char)(at * 7 + at / 251);
    FILE *file = fopen("large", "w+");
    CHECK(fwrite(block, 1, 10, file) == 10 && fwrite(block + 10, 1, sizeof block - 10, file) == sizeof block - 10);
    rewind(file);
    CHECK(fread(back, 1, 100, file) == 100 && fread(back + 100, 1, sizeof back, file) == sizeof back - 100);
    CHECK(memcmp(block, back, sizeof back) == 0);
    rewind(file);
    int wrong = 0;
    for (size_t at = 0; at < sizeof block; ++at)
        wrong += getc(file) != (unsigned char)block[at];
    CHECK(wrong == 0 && getc(file) == EOF && fclose(file) == 0);
}

static void in_memory(void)
{
    char given[8] = "", *made = NULL;
    size_t size = 0;
    FILE *file = fmemopen("12 34", 5, "r");
    int a = 0, b = 0;
    CHECK(file != NULL && fscanf(file, "%d %d", &a, &b) == 2 && a == 12 && b == 34 && fgetc(file) == EOF && fclose(file) == 0);
    file = fmemopen(given, sizeof given, "w");
    CHECK(fprintf(file, "%d", 123) == 3 && fclose(file) == 0 && strcmp(given, "123") == 0);
    file = open_memstream(&made, &size);
    CHECK(fputs("hello", file) >= 0 && fflush(file) == 0 && size == 5 && strcmp(made, "hello") == 0);
    for (int at = 0; at < 1000; ++at)
        fprintf(file, " %d", at);
    CHECK(fclose(file) == 0 && size == 5 + 3890 && strlen(made) == size);
    free(made);
    CHECK((file = tmpfile()) != NULL && fputs("kept", file) >= 0 && (rewind(file), fgetc(file)) == 'k' && fclose(file) == 0);
    CHECK(asprintf(&made, "%s-%d", "x", 5) == 3 && strcmp(made, "x-5") == 0);
    free(made);
}

static ssize_t write_cookie(void *cookie, const char *bytes_given, size_t size)
{
    strncat(cookie, bytes_given, size);
    return (ssize_t)size;
}

static void of_descriptors(void)
{
    char taken[32] = "";
    int fd = open("numbers", O_RDWR | O_CREAT | O_TRUNC, 0600);
    CHECK(dprintf(fd, "%d+%d", 1, 2) == 3 && lseek(fd, 0, SEEK_SET) == 0);
    FILE *file = fdopen(fd, "r");
    CHECK(file != NULL && fileno(file) == fd && fgetc(file) == '1' && __freadable(file) && !__fwritable(file));
    CHECK(freopen("lines", "r", file) == file && fgetc(file) == 'o' && fclose(file) == 0);
    CHECK(fdopen(999, "r") == NULL && errno == EBADF);
    file = fdopen(open("numbers", O_RDWR), "a");
    CHECK(fputs("!", file) >= 0 && fclose(file) == 0);
    HAS("numbers", "1+2!");
    file = fopencookie(taken, "w", (cookie_io_functions_t){.write = write_cookie});
    CHECK(fputs("cookie", file) >= 0 && __fpending(file) == 6 && fclose(file) == 0 && strcmp(taken, "cookie") == 0);
    CHECK(setvbuf(stdout, NULL, _IOLBF, 0) == 0 && fileno(stdin) == 0 && fileno(stdout) == 1 && fileno(stderr) == 2);
}

static void names(void)
{
    char name[] = "fileXXXXXX", ended[] = "fileXXXXXX.c", directory[] = "dirXXXXXX", bad[] = "fileXX";
    int fd = mkstemp(name), other = mkstemps(ended, 2);
    CHECK(fd >= 0 && other >= 0 && access(name, F_OK) == 0 && strcmp(ended + 10, ".c") == 0 && strcmp(name, "fileXXXXXX") != 0);
    CHECK(close(fd) == 0 && close(other) == 0 && remove(name) == 0 && remove(ended) == 0);
    CHECK(mkdtemp(directory) == directory && access(directory, F_OK) == 0 && remove(directory) == 0);
    FAILS(mkstemp(bad), EINVAL);
    FAILS(remove("absent"), ENOENT);
}

static void remove_all(void)
{
    static const char *const made[] = {"modes", "lines", "bytes", "places", "large", "numbers"};
    for (size_t at = 0; at < sizeof made / sizeof *made; ++at)
        CHECK(unlink(made[at]) == 0);
}

int main(int argc, char **argv)
{
    if (argc < 2 || chdir(argv[1]) != 0)
        return 2;
    modes();
    lines();
    bytes();
    places();
    large();
    in_memory();
    of_descriptors();
    names();
    remove_all();
    return finish();
}
