/* wordexp: quotes, variables, the home directory, patterns, and what is refused. */
#include "check.h"

#include <stdlib.h>
#include <sys/stat.h>
#include <unistd.h>
#include <wordexp.h>

/* The words between bars; the error where there is one. */
static const char *words_of(const char *text, int flags)
{
    static char all[256];
    wordexp_t found;
    int error = wordexp(text, &found, flags);
    if (error != 0)
        return error == WRDE_BADCHAR ? "BADCHAR" : error == WRDE_BADVAL ? "BADVAL" : error == WRDE_CMDSUB ? "CMDSUB"
             : error == WRDE_SYNTAX ? "SYNTAX" : "NOSPACE";
    strcpy(all, "|");
    for (size_t at = 0; at < found.we_wordc; ++at)
        strcat(strcat(all, found.we_wordv[at]), "|");
    CHECK(found.we_wordv[found.we_wordc] == NULL);
    wordfree(&found);
    return all;
}

#define WORDS(text, wanted) check_text(__LINE__, words_of(text, WRDE_NOCMD), wanted)

static void quotes(void)
{
    WORDS("one two\tthree", "|one|two|three|");
    WORDS("  ", "|");
    WORDS("", "|");
    WORDS("'a b' \"c d\" e\\ f", "|a b|c d|e f|");
    WORDS("'' \"\" x''y", "|||xy|");
    WORDS("\"a\\\"b\\$c\\d\" '\\'", "|a\"b$c\\d|\\|");
    WORDS("'open", "SYNTAX");
    WORDS("\"open", "SYNTAX");
    WORDS("a\\\nb", "|ab|");
}

static void variables(void)
{
    setenv("ONE", "1", 1);
    setenv("TWO", "a  b", 1);
    setenv("STAR", "f*", 1);
    unsetenv("NONE");
    WORDS("$ONE x$ONE.y ${ONE}z", "|1|x1.y|1z|");
    WORDS("$TWO", "|a|b|");
    WORDS("\"$TWO\" '$TWO'", "|a  b|$TWO|");
    WORDS("$NONE x$NONE", "|x|");
    WORDS("\"$NONE\"", "||");
    WORDS("\"$STAR\"", "|f*|");
    WORDS("a$ b", "|a$|b|");
    check_text(__LINE__, words_of("$NONE", WRDE_UNDEF), "BADVAL");
    setenv("HOME", "/home/x", 1);
    WORDS("~ ~/a a~ '~'", "|/home/x|/home/x/a|a~|~|");
}

static void patterns(void)
{
    WORDS("f* f? none*", "|f1|f2|f1|f2|none*|");
    WORDS("'f*' f\\* \"f?\"", "|f*|f*|f?|");
    WORDS("f[1] d/*", "|f1|d/g|");
}

static void refused(void)
{
    WORDS("a | b", "BADCHAR");
    WORDS("a;b", "BADCHAR");
    WORDS("a & b", "BADCHAR");
    WORDS("<x", "BADCHAR");
    WORDS("(x)", "BADCHAR");
    WORDS("$(true)", "CMDSUB");
    WORDS("`true`", "CMDSUB");
    WORDS("'a;b' a\\;b", "|a;b|a;b|");
}

static void together(void)
{
    wordexp_t found = {.we_offs = 2};
    CHECK(wordexp("a b", &found, WRDE_DOOFFS) == 0 && found.we_wordc == 2 && found.we_wordv[0] == NULL && found.we_wordv[1] == NULL);
    CHECK(strcmp(found.we_wordv[2], "a") == 0 && strcmp(found.we_wordv[3], "b") == 0 && found.we_wordv[4] == NULL);
    CHECK(wordexp("c", &found, WRDE_DOOFFS | WRDE_APPEND) == 0 && found.we_wordc == 3 && strcmp(found.we_wordv[4], "c") == 0 && !found.we_wordv[5]);
    CHECK(wordexp("a;b", &found, WRDE_DOOFFS | WRDE_APPEND) == WRDE_BADCHAR && found.we_wordc == 3 && strcmp(found.we_wordv[4], "c") == 0);
    CHECK(wordexp("d", &found, WRDE_DOOFFS | WRDE_REUSE) == 0 && found.we_wordc == 1 && strcmp(found.we_wordv[2], "d") == 0);
    wordfree(&found);
}

int main(int argc, char **argv)
{
    if (argc > 1)
        CHECK(chdir(argv[1]) == 0);
    CHECK(mkdir("d", 0777) == 0);
    fclose(fopen("f1", "w"));
    fclose(fopen("f2", "w"));
    fclose(fopen("d/g", "w"));
    quotes();
    variables();
    patterns();
    refused();
    together();
    CHECK(unlink("f1") == 0 && unlink("f2") == 0 && unlink("d/g") == 0 && rmdir("d") == 0);
    return finish();
}
