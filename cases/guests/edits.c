/* Does what its words say, one after another, with the files that it is given: what the checks of tools/run-in run. */
#include <errno.h>
#include <stdio.h>
#include <stdlib.h>
#include <string.h>
#include <sys/stat.h>
#include <unistd.h>

static void fail(const char *what)
{
    fprintf(stderr, "%s: %s\n", what, strerror(errno));
}

/* Copies a file, or standard input where its name is `-`, to standard output. */
static void show(const char *name)
{
    FILE *file = strcmp(name, "-") == 0 ? stdin : fopen(name, "r");
    if (file == NULL) {
        fail(name);
        return;
    }
    for (int c; (c = getc(file)) != EOF;)
        putchar(c);
    if (file != stdin)
        fclose(file);
}

static void write_text(const char *name, const char *text)
{
    FILE *file = fopen(name, "w");
    if (file == NULL) {
        fail(name);
        return;
    }
    fputs(text, file);
    fclose(file);
}

static void fill_memory(void)
{
    for (;;)
        if (malloc(1 << 20) == NULL)
            return;
}

/* Does one word with those behind it, and says how many of them it took. */
static int act(char **words)
{
    const char *word = words[0], *first = words[1], *second = first == NULL ? NULL : words[2];
    if (strcmp(word, "spin") == 0)
        for (;;)
            ;
    if (strcmp(word, "fill") == 0) {
        fill_memory();
        return 1;
    }
    if (first == NULL)
        exit(99);
    if (strcmp(word, "show") == 0)
        return show(first), 2;
    if (strcmp(word, "print") == 0)
        return fputs(first, stdout), 2;
    if (strcmp(word, "complain") == 0)
        return fputs(first, stderr), 2;
    if (strcmp(word, "exit") == 0)
        exit(atoi(first));
    if (strcmp(word, "remove") == 0)
        return (remove(first) == 0 ? (void)0 : fail(first)), 2;
    if (strcmp(word, "directory") == 0)
        return (mkdir(first, 0777) == 0 ? (void)0 : fail(first)), 2;
    if (second == NULL)
        exit(99);
    if (strcmp(word, "write") == 0)
        return write_text(first, second), 3;
    if (strcmp(word, "move") == 0)
        return (rename(first, second) == 0 ? (void)0 : fail(first)), 3;
    if (strcmp(word, "link") == 0)
        return (symlink(first, second) == 0 ? (void)0 : fail(second)), 3;
    exit(99);
}

int main(int argc, char **argv)
{
    for (int at = 1; at < argc;)
        at += act(argv + at);
    return 0;
}
