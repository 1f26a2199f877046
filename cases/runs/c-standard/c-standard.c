/* What C says of each of its headers, so far as the other programs of checks don't ask it. */
#include "check.h"

#include <assert.h>
#include <complex.h>
#include <ctype.h>
#include <fenv.h>
#include <float.h>
#include <inttypes.h>
#include <iso646.h>
#include <limits.h>
#include <locale.h>
#include <math.h>
#include <setjmp.h>
#include <signal.h>
#include <stdalign.h>
#include <stdarg.h>
#include <stdatomic.h>
#include <stdbool.h>
#include <stddef.h>
#include <stdint.h>
#include <stdlib.h>
#include <stdnoreturn.h>
#include <tgmath.h>
#include <threads.h>
#include <time.h>
#include <unistd.h>

static void limits(void)
{
    CHECK(TMP_MAX >= 25 && FOPEN_MAX >= 8 && FILENAME_MAX >= 14 && L_tmpnam > 1 && BUFSIZ >= 256 && EOF < 0);
    CHECK(RAND_MAX >= 32767 && EXIT_SUCCESS == 0 && EXIT_FAILURE != 0 && MB_CUR_MAX >= 1 && MB_LEN_MAX >= 1 && CLOCKS_PER_SEC == 1000000);
    CHECK(CHAR_BIT == 8 && INT_MAX == 2147483647 && LONG_MIN == -LONG_MAX - 1 && ULLONG_MAX == UINT64_MAX && SIZE_MAX == UINT64_MAX);
    CHECK(WCHAR_MAX >= 127 && PTRDIFF_MAX == INT64_MAX && SIG_ATOMIC_MAX >= 127 && INTPTR_MAX == INT64_MAX);
    CHECK(DBL_DIG == 15 && DBL_DECIMAL_DIG == 17 && FLT_EVAL_METHOD >= -1 && DBL_TRUE_MIN > 0 && LDBL_MANT_DIG >= 53 && FLT_RADIX == 2);
    CHECK(EDOM != 0 && ERANGE != 0 && EILSEQ != 0 && offsetof(struct { char a; int b; }, b) == 4 && alignof(max_align_t) >= 8);
    CHECK(SIGABRT && SIGFPE && SIGILL && SIGINT && SIGSEGV && SIGTERM && SIG_ERR != SIG_DFL);
}

static void letters(void)
{
    int counts[12] = {0};
    for (int at = 0; at < 128; ++at) {
        int kinds[12] = {isalnum(at), isalpha(at), isblank(at), iscntrl(at), isdigit(at), isgraph(at),
                         islower(at), isprint(at), ispunct(at), isspace(at), isupper(at), isxdigit(at)};
        for (int kind = 0; kind < 12; ++kind)
            counts[kind] += kinds[kind] != 0;
    }
    static const int wanted[12] = {62, 52, 2, 33, 10, 94, 26, 95, 32, 6, 26, 22};
    CHECK(memcmp(counts, wanted, sizeof counts) == 0 && toupper('z') == 'Z' && tolower('A') == 'a' && toupper('1') == '1' && !isalpha(EOF));
}

static int compare(const void *left, const void *right)
{
    return *(const int *)left - *(const int *)right;
}

static void general(void)
{
    char *end;
    int numbers[200], wanted = 37;
    volatile size_t many = SIZE_MAX / 2;
    CHECK(strtol(" -077x", &end, 0) == -63 && *end == 'x' && strtol("zz", NULL, 36) == 1295 && strtoul("-1", NULL, 10) == ULONG_MAX);
    CHECK(strtol("0x", &end, 16) == 0 && *end == 'x' && strtoll("-9223372036854775809", NULL, 10) == LLONG_MIN && errno == ERANGE);
    CHECK(strtod("0x1.8p3", &end) == 12 && strtod("inf", NULL) == HUGE_VAL && isnan(strtod("nan(1)", &end)) && *end == 0);
    CHECK(strtof("3.4e39", NULL) == HUGE_VALF && strtod("1e-400", NULL) == 0 && strtold("0.1", NULL) == 0.1L && atof("2.5") == 2.5);
    for (int at = 0; at < 200; ++at)
        numbers[at] = at * 73 % 200;
    qsort(numbers, 200, sizeof(int), compare);
    int sorted = 1;
    for (int at = 0; at < 200; ++at)
        sorted &= numbers[at] == at;
    CHECK(sorted && bsearch(&wanted, numbers, 200, sizeof(int), compare) == &numbers[37]);
    wanted = 500;
    CHECK(bsearch(&wanted, numbers, 200, sizeof(int), compare) == NULL);
    div_t parts = div(-7, 2);
    lldiv_t large = lldiv(-9, 4);
    CHECK(parts.quot == -3 && parts.rem == -1 && large.quot == -2 && large.rem == -1 && labs(-5L) == 5 && imaxabs(-6) == 6);
    srand(1);
    int first = rand();
    srand(1);
    CHECK(rand() == first && first >= 0 && getenv("NOT_THERE") == NULL);
    void *aligned = aligned_alloc(256, 512);
    CHECK(aligned != NULL && (uintptr_t)aligned % 256 == 0);
    free(aligned);
    CHECK(mblen("a", 1) == 1 && mblen("", 1) == 0 && mblen(NULL, 0) == 0 && calloc(many, 4) == NULL);
}

static void texts(void)
{
    char room[32] = "a,b;c";
    CHECK(strcmp(strtok(room, ",;"), "a") == 0 && strcmp(strtok(NULL, ",;"), "b") == 0 && strcmp(strtok(NULL, ",;"), "c") == 0 && !strtok(NULL, ","));
    CHECK(strspn("aab", "a") == 2 && strcspn("abc", "c") == 2 && *strpbrk("hello", "xl") == 'l' && strstr("haystack", "st") != NULL);
    CHECK(strstr("abc", "") != NULL && strstr("ab", "abc") == NULL && strrchr("aba", 'a')[1] == 0 && strchr("x", 0) != NULL);
    CHECK(memcmp("a\200", "a\1", 2) > 0 && strcmp("\200", "a") > 0 && strncmp("abc", "abd", 2) == 0 && strcoll("a", "b") < 0);
    memset(room, 'z', sizeof room);
    CHECK(strncpy(room, "ab", 5) == room && memcmp(room, "ab\0\0\0z", 6) == 0 && strcmp(strncat(room, "cd", 5), "abcd") == 0);
    CHECK(strxfrm(room, "text", sizeof room) == 4 && strcmp(room, "text") == 0 && memmove(room + 1, room, 4) && memcmp(room, "ttext", 5) == 0);
    CHECK(strlen(strerror(ENOENT)) > 0 && strcmp(strerror(EACCES), "Permission denied") == 0 && strlen(strerror(12345)) > 0);
    CHECK(strcmp(setlocale(LC_ALL, NULL), "C") == 0 && setlocale(LC_ALL, "") != NULL && strcmp(localeconv()->decimal_point, ".") == 0);
    CHECK(*localeconv()->thousands_sep == 0 && localeconv()->frac_digits == CHAR_MAX && setlocale(LC_ALL, "xx_XX") == NULL);
}

#define NEAR(left, right) (fabs((left) - (right)) <= 4e-16 * fabs(right))

static void mathematics(void)
{
    int exponent;
    double whole;
    CHECK(NEAR(sin(1.0), 0.8414709848078965) && NEAR(cos(1.0), 0.5403023058681398) && NEAR(tan(1.0), 1.5574077246549023));
    CHECK(NEAR(asin(0.5), 0.5235987755982989) && NEAR(acos(0.5), 1.0471975511965979) && NEAR(atan2(1.0, -1.0), 2.356194490192345));
    CHECK(NEAR(exp(1.0), 2.718281828459045) && NEAR(log(10.0), 2.302585092994046) && NEAR(pow(2.0, 0.5), 1.4142135623730951) && log2(8.0) == 3);
    CHECK(NEAR(sinh(1.0), 1.1752011936438014) && NEAR(cosh(1.0), 1.5430806348152437) && NEAR(tanh(1.0), 0.7615941559557649));
    CHECK(NEAR(asinh(1.0), 0.881373587019543) && NEAR(acosh(2.0), 1.3169578969248166) && NEAR(atanh(0.5), 0.5493061443340548));
    CHECK(NEAR(erf(1.0), 0.8427007929497149) && NEAR(erfc(1.0), 0.15729920705028513) && NEAR(tgamma(5.5), 52.34277778455352));
    CHECK(NEAR(lgamma(10.0), 12.801827480081469) && NEAR(cbrt(27.0), 3.0) && NEAR(hypot(3.0, 4.0), 5.0) && NEAR(expm1(1e-5), 1.0000050000166668e-05));
    CHECK(NEAR(log1p(1e-5), 9.999950000333332e-06) && NEAR(log10(1000.0), 3.0) && NEAR(exp2(0.5), 1.4142135623730951));
    CHECK(sqrt(2.0) == 1.4142135623730951 && fma(0.1, 10.0, -1.0) == 0x1p-54 && fmod(-7.5, 2.0) == -1.5);
    CHECK(remainder(7.0, 4.0) == -1 && floor(-1.5) == -2 && ceil(-1.5) == -1 && trunc(-1.5) == -1 && round(2.5) == 3 && rint(2.5) == 2);
    CHECK(lround(-2.5) == -3 && llrint(3.5) == 4 && nearbyint(-0.5) == 0 && signbit(nearbyint(-0.5)) && copysign(1.0, -0.0) == -1);
    CHECK(frexp(12.0, &exponent) == 0.75 && exponent == 4 && ldexp(0.75, 4) == 12 && modf(-3.25, &whole) == -0.25 && whole == -3);
    CHECK(scalbn(1.5, 10) == 1536 && ilogb(1000.0) == 9 && logb(0.1) == -4 && nextafter(1.0, 2.0) == 1 + DBL_EPSILON && fdim(5.0, 3.0) == 2);
    CHECK(fmax(1.0, NAN) == 1 && fmin(NAN, 2.0) == 2 && isnan(NAN) && isinf(-INFINITY) && isfinite(1.0) && isnormal(1.0) && !isnormal(5e-324));
    CHECK(fpclassify(0.0) == FP_ZERO && fpclassify(5e-324) == FP_SUBNORMAL && isunordered(1.0, NAN) && isless(1.0, 2.0) && !isgreater(1.0, 2.0));
    CHECK(sqrtl(2.0L) * sqrtl(2.0L) - 2.0L < 1e-18L && fabsl(sinl(1.0L) - 0.841470984807896506652502321630298999L) < 1e-15L && floorl(-1.5L) == -2);
    CHECK(fabsf(sinf(1.0f) - 0.84147096f) < 1e-7f && sqrtf(2.0f) == 1.41421354f && powf(2, 10) == 1024);
    CHECK(sizeof(sqrt(2.0f)) == sizeof(float) && sizeof(sqrt(2.0L)) == sizeof(long double));
    CHECK(isnan(sqrt(-1.0)) && isinf(log(0.0)) && isinf(exp(1000.0)) && exp(-1000.0) == 0);
}

static void complex_numbers(void)
{
    double complex value = 3.0 + 4.0 * I, root = csqrt(-1.0 + 0.0 * I), power = cexp(I * M_PI);
    CHECK(cabs(value) == 5 && creal(value) == 3 && cimag(conj(value)) == -4 && fabs(carg(1.0 * I) - M_PI_2) < 1e-15);
    CHECK(fabs(creal(root)) < 1e-15 && fabs(cimag(root) - 1) < 1e-15 && fabs(creal(power) + 1) < 1e-15);
    CHECK(creal(value * value) == -7 && cimag(value * value) == 24 && creal(value / value) == 1);
    CHECK(fabs(creal(clog(value)) - log(5.0)) < 1e-15 && fabs(creal(cpow(value, 2.0)) + 7) < 1e-13 && cproj(value) == value);
}

static void environment(void)
{
    fenv_t kept;
    CHECK(fegetround() == FE_TONEAREST && fegetenv(&kept) == 0 && fesetenv(&kept) == 0 && fesetround(FE_TONEAREST) == 0);
}

static void integers(void)
{
    intmax_t number = strtoimax("-5", NULL, 10);
    imaxdiv_t parts = imaxdiv(number, 2);
    CHECK(number == -5 && parts.quot == -2 && parts.rem == -1 && strtoumax("ff", NULL, 16) == 255);
    PRINTS("-5 ff 18446744073709551615", "%" PRIdMAX " %" PRIx8 " %" PRIu64, number, (uint8_t)255, UINT64_MAX);
    uint16_t small;
    int64_t large;
    CHECK(sscanf("17 -18", "%" SCNu16 " %" SCNd64, &small, &large) == 2 && small == 17 && large == -18);
    CHECK((true and not false) && (5 bitand 4) == 4 && (6 xor 3) == 5);
}

static void times(void)
{
    struct tm time = {.tm_year = 124, .tm_mon = 1, .tm_mday = 30, .tm_hour = 25}, *found;
    char text[128];
    time_t moment = 951782400; /* 2000-02-29 */
    found = gmtime(&moment);
    CHECK(found->tm_year == 100 && found->tm_mon == 1 && found->tm_mday == 29 && found->tm_wday == 2 && found->tm_yday == 59);
    CHECK(mktime(&time) != (time_t)-1);
    CHECK(time.tm_mon == 2 && time.tm_mday == 2 && time.tm_hour == 1 && time.tm_wday == 6 && time.tm_yday == 61);
    CHECK(strftime(text, sizeof text, "%A %B %d %I %p %y %% %C %e %D %F %T %R %u %w %n%t", gmtime(&moment)) > 0);
    CHECK(strcmp(text, "Tuesday February 29 12 AM 00 % 20 29 02/29/00 2000-02-29 00:00:00 00:00 2 2 \n\t") == 0);
    CHECK(strftime(text, sizeof text, "%G-W%V %U %W %j %h %b %a", gmtime(&moment)) && strcmp(text, "2000-W09 09 09 060 Feb Feb Tue") == 0);
    CHECK(strcmp(asctime(gmtime(&moment)), "Tue Feb 29 00:00:00 2000\n") == 0 && difftime(moment, moment - 5) == 5);
    moment = -1;
    CHECK(gmtime(&moment)->tm_year == 69 && strftime(text, 3, "%Y", gmtime(&moment)) == 0);
    struct timespec now;
    CHECK(timespec_get(&now, 0) == 0);
}

static jmp_buf place;

static noreturn void leave(int value)
{
    longjmp(place, value);
}

static int adds(int count, ...)
{
    va_list list, again;
    int sum = 0;
    va_start(list, count);
    va_copy(again, list);
    for (int at = 0; at < count; ++at)
        sum += va_arg(list, int);
    sum = sum * 100 + va_arg(again, int);
    va_end(again);
    va_end(list);
    return sum;
}

static unsigned short own_count = 1;

static void language(void)
{
    volatile int come = 0;
    switch (setjmp(place)) {
    case 0: ++come; leave(0); break;
    case 1: ++come; break;
    }
    CHECK(come == 2 && adds(3, 1, 2, 3) == 601);
    atomic_int number = ATOMIC_VAR_INIT(5);
    atomic_flag flag = ATOMIC_FLAG_INIT;
    int wanted = 7;
    CHECK(atomic_fetch_add(&number, 2) == 5 && atomic_compare_exchange_strong(&number, &wanted, 9) && atomic_load(&number) == 9);
    CHECK(!atomic_flag_test_and_set(&flag) && atomic_flag_test_and_set(&flag) && atomic_exchange(&number, 1) == 9);
    struct {
        atomic_uchar low, high;
        atomic_ushort half;
    } parts = {250, 1, 0xfff0};
    unsigned char low = 4;
    CHECK(atomic_fetch_add(&parts.low, 10) == 250 && parts.low == 4 && parts.high == 1 && atomic_fetch_or(&parts.high, 6) == 1 && parts.high == 7);
    CHECK(atomic_fetch_sub(&parts.half, 0xfff1) == 0xfff0 && parts.half == 0xffff && parts.low == 4 && atomic_exchange(&parts.high, 9) == 7);
    CHECK(atomic_compare_exchange_strong(&parts.low, &low, 5) && !atomic_compare_exchange_strong(&parts.low, &low, 6) && low == 5);
    CHECK(__sync_fetch_and_add(&own_count, 2) == 1 && __sync_bool_compare_and_swap(&own_count, 3, 4) && __sync_lock_test_and_set(&own_count, 8) == 4);
    alignas(64) char bytes[64];
    CHECK((uintptr_t)bytes % 64 == 0);
    assert(come == 2);
    static thread_local int own = 3;
    CHECK(++own == 4 && _Generic(own, int: 1, default: 0));
}

static int called;

static void call(void)
{
    ++called;
}

static void one_thread(void)
{
    once_flag once = ONCE_FLAG_INIT;
    mtx_t mutex;
    cnd_t condition;
    tss_t key;
    int value;
    call_once(&once, call);
    call_once(&once, call);
    CHECK(called == 1 && mtx_init(&mutex, mtx_plain) == thrd_success && mtx_lock(&mutex) == thrd_success);
    CHECK(mtx_trylock(&mutex) == thrd_busy && mtx_unlock(&mutex) == thrd_success);
    mtx_destroy(&mutex);
    CHECK(mtx_init(&mutex, mtx_plain | mtx_recursive) == thrd_success && !mtx_lock(&mutex) && !mtx_lock(&mutex) && !mtx_unlock(&mutex));
    CHECK(cnd_init(&condition) == thrd_success && cnd_signal(&condition) == thrd_success && cnd_broadcast(&condition) == thrd_success);
    cnd_destroy(&condition);
    CHECK(tss_create(&key, NULL) == thrd_success && tss_get(key) == NULL && tss_set(key, &value) == thrd_success && tss_get(key) == &value);
    tss_delete(key);
    CHECK(thrd_equal(thrd_current(), thrd_current()));
    thrd_yield();
}

static void random_numbers(void)
{
    static char state[128];
    srandom(1);
    CHECK(random() == 1804289383 && random() == 846930886);
    char *before = initstate(7, state, sizeof state);
    CHECK(before != NULL && random() == 1045618677);
    setstate(before);
    CHECK(random() == 1681692777);
    setstate(state);
    CHECK(random() == 1863967299);
    srandom(42);
    CHECK(random() == 71876166);
}

static void last(void)
{
    finish();
    fflush(stdout);
}

/* Its end is `quick_exit`, which calls functions of its own. */
int main(void)
{
    limits();
    letters();
    general();
    texts();
    mathematics();
    complex_numbers();
    environment();
    integers();
    times();
    language();
    one_thread();
    random_numbers();
    atexit(call);
    CHECK(at_quick_exit(last) == 0);
    quick_exit(failures != 0);
}
