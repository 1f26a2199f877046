/* Wide characters and texts: scanning, streams in memory, numbers, times, and characters of 16 and 32 bits. */
#include "check.h"

#include <locale.h>
#include <stdarg.h>
#include <stdlib.h>
#include <time.h>
#include <uchar.h>
#include <unistd.h>
#include <wchar.h>
#include <wctype.h>

static void scans(void)
{
    int number = 0, other = 0, taken = 0;
    double real = 0;
    long double long_real = 0;
    char text[16] = "", letters[3] = "";
    wchar_t wide[16] = L"", set[16] = L"";
    CHECK(swscanf(L"12 0x1f", L"%d %i", &number, &other) == 2 && number == 12 && other == 31);
    CHECK(swscanf(L" 1.5e2 -0.25", L"%lf %Lf", &real, &long_real) == 2 && real == 150 && long_real == -0.25L);
    CHECK(swscanf(L"some words", L"%s %ls%n", text, wide, &taken) == 2 && strcmp(text, "some") == 0 && wcscmp(wide, L"words") == 0 && taken == 10);
    CHECK(swscanf(L"abc123", L"%l[a-c]%2c", set, letters) == 2 && wcscmp(set, L"abc") == 0 && memcmp(letters, "12", 2) == 0);
    CHECK(swscanf(L"", L"%d", &number) == EOF && swscanf(L"x", L"%d", &number) == 0 && swscanf(L"7 x", L"%d %d", &number, &other) == 1);
    CHECK(swscanf(L"5;6", L"%d;%*d%n", &number, &taken) == 1 && number == 5 && taken == 3);
}

static int scans_list(const wchar_t *text, const wchar_t *format, ...)
{
    va_list list;
    va_start(list, format);
    int count = vswscanf(text, format, list);
    va_end(list);
    return count;
}

static int scans_file(FILE *file, const wchar_t *format, ...)
{
    va_list list;
    va_start(list, format);
    int count = vfwscanf(file, format, list);
    va_end(list);
    return count;
}

static void of_files(void)
{
    int number = 0, other = 0;
    wchar_t line[16];
    FILE *file = fopen("wide", "w+");
    CHECK(file != NULL && fwprintf(file, L"%d %ls\n%d\n", 17, L"line", 18) == 11);
    rewind(file);
    CHECK(fwscanf(file, L"%d %15ls", &number, line) == 2 && number == 17 && wcscmp(line, L"line") == 0);
    CHECK(fgetwc(file) == L'\n' && scans_file(file, L"%d", &other) == 1 && other == 18);
    CHECK(scans_list(L"4", L"%d", &number) == 1 && number == 4 && fwscanf(file, L"%d", &number) == EOF && feof(file));
    CHECK(fclose(file) == 0 && unlink("wide") == 0);
}

static void in_memory(void)
{
    wchar_t *text = NULL;
    size_t size = 99;
    FILE *file = open_wmemstream(&text, &size);
    CHECK(file != NULL && fwprintf(file, L"%d-%ls", 5, L"five") == 6 && fflush(file) == 0 && size == 6 && wcscmp(text, L"5-five") == 0);
    CHECK(fputwc(L'!', file) == L'!' && fputws(L"?", file) >= 0 && fflush(file) == 0 && size == 8 && wcscmp(text, L"5-five!?") == 0);
    for (int at = 0; at < 1000; ++at)
        fputwc(L'a' + at % 26, file);
    CHECK(fclose(file) == 0 && size == 1008 && wcslen(text) == 1008 && text[1007] == L'a' + 999 % 26);
    free(text);
}

static void numbers(void)
{
    wchar_t *end;
    CHECK(wcstold(L"  -2.5e1x", &end) == -25 && *end == L'x');
    CHECK(wcstod(L"0.1", &end) == 0.1 && *end == L'\0' && wcstof(L"1e-3q", &end) == 1e-3f && *end == L'q');
    const wchar_t *none = L"none";
    CHECK(wcstold(none, &end) == 0 && end == none);
    CHECK(wcstol(L"-0x10,", &end, 0) == -16 && *end == L',' && wcstoull(L"18446744073709551615", NULL, 10) == 18446744073709551615u);
    CHECK(wcstol(L"99999999999999999999", NULL, 10) == 9223372036854775807 && errno == ERANGE);
}

static void times(void)
{
    struct tm time = {.tm_year = 126, .tm_mon = 10, .tm_mday = 29, .tm_hour = 7, .tm_min = 5, .tm_sec = 9, .tm_wday = 0, .tm_yday = 332};
    wchar_t text[64];
    CHECK(wcsftime(text, 64, L"%Y-%m-%d %H:%M:%S %a %j", &time) == 27 && wcscmp(text, L"2026-11-29 07:05:09 Sun 333") == 0);
    CHECK(wcsftime(text, 4, L"%Y", &time) == 0 && wcsftime(text, 5, L"%Y", &time) == 4);
}

static void characters(void)
{
    char32_t letter = 0;
    char16_t half = 0;
    char bytes[16];
    mbstate_t state = {0};
    CHECK(mbrtoc32(&letter, "A", 1, &state) == 1 && letter == U'A' && mbrtoc32(&letter, "", 1, &state) == 0 && letter == 0);
    CHECK(mbrtoc16(&half, "zz", 2, &state) == 1 && half == u'z' && mbrtoc16(&half, "zz", 0, &state) == (size_t)-2);
    CHECK(c32rtomb(bytes, U'b', &state) == 1 && bytes[0] == 'b' && c16rtomb(bytes, u'c', &state) == 1 && bytes[0] == 'c');
    CHECK(c32rtomb(NULL, U'b', &state) == 1);
    errno = 0;
    CHECK(c32rtomb(bytes, 0x20ac, &state) == (size_t)-1 && errno == EILSEQ);
}

static void texts(void)
{
    wchar_t room[32], *rest;
    CHECK(wcscmp(wcscat(wcscpy(room, L"ab"), L"cd"), L"abcd") == 0 && wcsstr(room, L"bc") == room + 1 && wcschr(room, L'd') == room + 3);
    CHECK(wcscmp(wcstok(wcscpy(room, L"a,b"), L",", &rest), L"a") == 0 && wcscmp(wcstok(NULL, L",", &rest), L"b") == 0);
    CHECK(wcsspn(L"aab", L"a") == 2 && wcscspn(L"xyz", L"z") == 2 && wcspbrk(L"none", L"xe") != NULL && wcsrchr(L"aba", L'a')[1] == 0);
    CHECK(wmemcmp(wmemset(room, L'x', 3), L"xxx", 3) == 0 && wcsncmp(L"abc", L"abd", 2) == 0 && wcscoll(L"a", L"b") < 0);
    CHECK(iswalpha(L'a') && !iswalpha(L'1') && iswdigit(L'1') && towupper(L'q') == L'Q' && iswctype(L' ', wctype("space")));
    CHECK(towctrans(L'A', wctrans("tolower")) == L'a' && btowc('a') == L'a' && wctob(L'a') == 'a' && wctob(0x20ac) == EOF);
    CHECK(swprintf(room, 32, L"%5.2f|%-4ls|%c", 3.14159, L"ab", 'z') == 12 && wcscmp(room, L" 3.14|ab  |z") == 0);
    CHECK(swprintf(room, 3, L"%d", 12345) < 0);
}

int main(int argc, char **argv)
{
    if (argc > 1)
        CHECK(chdir(argv[1]) == 0);
    scans();
    of_files();
    in_memory();
    numbers();
    times();
    characters();
    texts();
    return finish();
}
