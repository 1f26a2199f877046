/* Numbers and texts to and from formats. */
#include "check.h"

#include <inttypes.h>
#include <limits.h>
#include <math.h>
#include <stddef.h>
#include <stdlib.h>
#include <wchar.h>

static void integers(void)
{
    PRINTS("42|   42|42   |00042|+42| 42", "%d|%5d|%-5d|%05d|%+d|% d", 42, 42, 42, 42, 42, 42);
    PRINTS("-2147483648 9223372036854775807", "%d %ld", INT_MIN, LONG_MAX);
    PRINTS("ff FF 0xff 377 0377 4294967295", "%x %X %#x %o %#o %u", 255, 255, 255, 255, 255, UINT_MAX);
    PRINTS("0 0 0x1", "%#x %#o %#x", 0, 0, 1);
    PRINTS("00005|    5|  005|", "%.5d|%5.1d|%5.3d|%.0d", 5, 5, 5, 0);
    PRINTS("-1 255 -1 65535", "%hhd %hhu %hd %hu", 255, 255, 65535, 65535);
    PRINTS("18446744073709551615 7 8 9", "%ju %zu %td %lld", UINTMAX_MAX, (size_t)7, (ptrdiff_t)8, 9LL);
    PRINTS("00ff|0x00ff|  0xff", "%04x|%#06x|%#6x", 255, 255, 255);
    PRINTS("  7|7  |007", "%*d|%-*d|%0*d", 3, 7, 3, 7, 3, 7);
    PRINTS("7  |", "%*d|", -3, 7);
    PRINTS("two 1 two", "%2$s %1$d %2$s", 1, "two");
    PRINTS("  5|0.50", "%1$*2$d|%3$.*4$f", 5, 3, 0.5, 2);
}

static void texts(void)
{
    int count = -1;
    PRINTS("abc|  abc|abc  |ab|   ab", "%s|%5s|%-5s|%.2s|%5.2s", "abc", "abc", "abc", "abc", "abc");
    PRINTS("a|  a|a  |%", "%c|%3c|%-3c|%%", 'a', 'a', 'a');
    PRINTS("wide|  wi", "%ls|%4.2ls", L"wide", L"wide");
    PRINTS("w", "%lc", L'w');
    PRINTS("abc", "ab%nc", &count);
    CHECK(count == 2);
    errno = ENOENT;
    snprintf(printed, sizeof printed, "%m");
    CHECK(strcmp(printed, strerror(ENOENT)) == 0);
    const char *six = "abcdef";
    CHECK(snprintf(printed, 4, "%s", six) == 6 && strcmp(printed, "abc") == 0);
    CHECK(snprintf(NULL, 0, "%d", 12345) == 5);
}

static void fixed(void)
{
    PRINTS("0.100000 0.1 0.10000000000000001", "%f %g %.17g", 0.1, 0.1, 0.1);
    PRINTS("0.10000000000000000555", "%.20f", 0.1);
    PRINTS("120000000000000003793529864192.000000", "%f", 1.2e29);
    PRINTS("1797693134862315708145274237317043567980705675258449965989174768031572607800285387605895586327668781"
           "7154045895351438246423432132688946418276846754670353751698604991057655128207624549009038932894407586"
           "8508455133942304583236903222948165808559332123348274797826204144723168738177180919299881250404026184"
           "124858368",
           "%.0f", 1.7976931348623157e308);
    PRINTS("0 2 2 4 -2", "%.0f %.0f %.0f %.0f %.0f", 0.5, 1.5, 2.5, 3.5, -2.5);
    PRINTS("0.12 0.13 1.0 10", "%.2f %.2f %.1f %.0f", 0.125, 0.126, 0.96, 9.5);
    PRINTS("  1.50|1.50  |001.50|+1.50", "%6.2f|%-6.2f|%06.2f|%+.2f", 1.5, 1.5, 1.5, 1.5);
    PRINTS("1.|1|-0.000000", "%#.0f|%.0f|%f", 1.0, 1.0, -0.0);
    PRINTS("0.00000000000000000000", "%.20f", 1e-30);
    PRINTS("4.9406564584124654e-324", "%.17g", 4.9406564584124654e-324);
}

static void scientific(void)
{
    PRINTS("1.234568e+04 1.23E+04 1e+04", "%e %.2E %.0e", 12345.678, 12345.678, 12345.678);
    PRINTS("0.000000e+00 1.e+00 9.999999e+99", "%e %#.0e %e", 0.0, 1.0, 9.999999e99);
    PRINTS("1.000000e+100 1.0e-100", "%e %.1e", 9.9999999e99, 1e-100);
    PRINTS("1e-05 0.0001 100000 1e+06 123457", "%g %g %g %g %g", 1e-5, 1e-4, 1e5, 1e6, 123456.7);
    PRINTS("100000. 1.00000 0 0.00000", "%#g %#g %g %#g", 1e5, 1.0, 0.0, 0.0);
    PRINTS("3.141592653589793 3.1415926535897931", "%.16g %1.17g", M_PI, M_PI);
    PRINTS("inf -inf INF nan   inf|inf  ", "%f %f %F %f %5f|%-5f", INFINITY, -INFINITY, INFINITY, NAN, INFINITY, INFINITY);
    PRINTS("  inf", "%05f", INFINITY);
    PRINTS("0x1p+0 0x1.999999999999ap-4 0x0p+0 0x1.8p+1", "%a %a %a %a", 1.0, 0.1, 0.0, 3.0);
    PRINTS("0x1.ap-4 0X1.8P+1", "%.1a %A", 0.1, 3.0);
    PRINTS("0.1 0.100000 1e+10", "%Lg %Lf %Lg", 0.1L, 0.1L, 1e10L);
    PRINTS("0.3333333333333333", "%.16Lg", 1.0L / 3);
    PRINTS("1000000000000000.5", "%.1Lf", 1000000000000000.5L);
}

static void to_reals(void)
{
    char *end;
    const char *text = "  -12.5e1x";
    CHECK(strtod(text, &end) == -125 && *end == 'x');
    CHECK(strtod("1e308", NULL) == 1e308 && strtod("4.9406564584124654e-324", NULL) == 4.9406564584124654e-324);
    CHECK(strtod("0.1", NULL) == 0.1 && strtod("123456789012345678901234567890", NULL) == 123456789012345678901234567890.0);
    CHECK(strtod("9007199254740993", NULL) == 9007199254740992.0 && strtod("9007199254740993.00000000000000000001", NULL) == 9007199254740994.0);
    CHECK(strtod("2.2250738585072011e-308", NULL) == 2.2250738585072011e-308);
    CHECK(strtod("6.929001713869936e+236", NULL) == 6.929001713869936e+236 && strtod("1.1126872e-307", NULL) == 1.1126872e-307);
    CHECK(strtod("0x1.8p3", NULL) == 12 && strtod("0x10", &end) == 16 && *end == '\0');
    CHECK(isinf(strtod("inf", NULL)) && isinf(strtod("-INFINITY", NULL)) && isnan(strtod("nan", NULL)) && isnan(strtod("nan(1)", NULL)));
    errno = 0;
    CHECK(strtod("1e999", NULL) == HUGE_VAL && errno == ERANGE);
    errno = 0;
    CHECK(strtod("1e-999", NULL) == 0 && errno == ERANGE);
    CHECK(isinf(strtod("9e2345", NULL)) && strtod("9e-2345", NULL) == 0 && isinf(strtof("9e301", NULL)));
    CHECK(isinf(strtod("1e99999999999999999999", NULL)) && strtod("0e99999999999999999999", NULL) == 0);
    text = "e5";
    CHECK(strtod(text, &end) == 0 && end == text);
    CHECK(strtod("1e", &end) == 1 && *end == 'e' && strtod(".5.", &end) == 0.5 && *end == '.' && strtod("0x", &end) == 0 && *end == 'x');
    CHECK(strtof("0.1", NULL) == 0.1f && strtof("16777217", NULL) == 16777216.0f && strtof("1e39", NULL) == HUGE_VALF);
    CHECK(strtold("0.1", NULL) == 0.1L && strtold("1e400", NULL) == 1e400L && strtold("1e-400", NULL) == 1e-400L);
    CHECK(atof("2.5") == 2.5 && signbit(strtod("-0", NULL)));
}

/* Each number is read back from 17 digits. */
static void there_and_back(void)
{
    uint64_t bits = 1;
    int wrong = 0;
    for (int at = 0; at < 300; ++at) {
        double number, back;
        bits = bits * UINT64_C(6364136223846793005) + UINT64_C(1442695040888963407);
        memcpy(&number, &bits, sizeof number);
        if (!isfinite(number))
            continue;
        snprintf(printed, sizeof printed, "%.17g", number);
        back = strtod(printed, NULL);
        wrong += memcmp(&number, &back, sizeof number) != 0;
        snprintf(printed, sizeof printed, "%de%d", (int)(bits >> 40), (int)(bits >> 20 & 31) - 16);
        wrong += strtod(printed, NULL) != (double)strtold(printed, NULL);
    }
    CHECK(wrong == 0);
}

static void integers_back(void)
{
    char *end;
    CHECK(strtol("  -42x", &end, 10) == -42 && *end == 'x' && strtol("0x1f", NULL, 0) == 31 && strtol("017", NULL, 0) == 15);
    CHECK(strtoul("zz", NULL, 36) == 1295 && strtoll("9223372036854775807", NULL, 10) == INT64_MAX);
    errno = 0;
    CHECK(strtol("9223372036854775808", NULL, 10) == LONG_MAX && errno == ERANGE);
    CHECK(atoi("12ab") == 12 && atol("-7") == -7 && strtoimax("5", NULL, 10) == 5);
}

static void scans(void)
{
    int a = 0, b = 0, c = 0;
    unsigned u = 0;
    long l = 0;
    short h = 0;
    char text[32] = "", other[32] = "", *made = NULL;
    float f = 0;
    double d = 0;
    long double ld = 0;
    CHECK(sscanf("12 -7 0x1f", "%d %d %i", &a, &b, &c) == 3 && a == 12 && b == -7 && c == 31);
    CHECK(sscanf("017 ff 18446744073709551615", "%i %x %lu", &a, &u, (unsigned long *)&l) == 3 && a == 15 && u == 255 && l == -1);
    CHECK(sscanf("70000 5", "%hd %ld", &h, &l) == 2 && h == (short)70000 && l == 5);
    CHECK(sscanf("abc def", "%s %s", text, other) == 2 && strcmp(text, "abc") == 0 && strcmp(other, "def") == 0);
    CHECK(sscanf("abcdef", "%3s%c", text, other) == 2 && strcmp(text, "abc") == 0 && other[0] == 'd');
    CHECK(sscanf("key=value;", "%[^=]=%[a-z]", text, other) == 2 && strcmp(other, "value") == 0);
    CHECK(sscanf("1.5 2.5e3 -0x1p4", "%f %lf %Lf", &f, &d, &ld) == 3 && f == 1.5f && d == 2500 && ld == -16);
    CHECK(sscanf("12:34", "%d:%d%n", &a, &b, &c) == 2 && b == 34 && c == 5);
    CHECK(sscanf("1 2 3", "%d %*d %d", &a, &b) == 2 && b == 3);
    CHECK(sscanf("", "%d", &a) == EOF && sscanf("x", "%d", &a) == 0 && sscanf("5 x", "%d %d", &a, &b) == 1);
    CHECK(sscanf("word", "%ms", &made) == 1 && strcmp(made, "word") == 0);
    free(made);
    CHECK(sscanf("50%", "%d%%", &a) == 1 && sscanf("ab", "a%c", text) == 1 && text[0] == 'b');
    CHECK(sscanf("]x]", "%[]x]", text) == 1 && strcmp(text, "]x]") == 0);
    CHECK(sscanf("inf nan", "%lf %f", &d, &f) == 2 && isinf(d) && isnan(f));
    CHECK(sscanf("123456", "%2d%3d", &a, &b) == 2 && a == 12 && b == 345);
}

static void wide_texts(void)
{
    wchar_t wide[16];
    char text[16];
    CHECK(mbstowcs(NULL, "seven..", 0) == 7 && mbstowcs(wide, "abc", 16) == 3 && wcscmp(wide, L"abc") == 0);
    CHECK(wcstombs(NULL, L"four", 0) == 4 && wcstombs(text, L"abc", 16) == 3 && strcmp(text, "abc") == 0);
    CHECK(swprintf(wide, 16, L"%d-%ls", 5, L"x") == 3 && wcscmp(wide, L"5-x") == 0);
    CHECK(wcslen(L"wide") == 4 && wcstol(L"12", NULL, 10) == 12);
}

int main(void)
{
    integers();
    texts();
    fixed();
    scientific();
    to_reals();
    there_and_back();
    integers_back();
    scans();
    wide_texts();
    return finish();
}
