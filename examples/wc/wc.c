/* Counts the lines of the files that its arguments name, and of standard input for `-` or where they name none. It is a plain C
   program: nothing in it knows of the sandbox. */
#include <errno.h>
#include <stdbool.h>
#include <stdio.h>
#include <string.h>

/* Prints how many lines the file has, and adds them to the total; false where it can't be opened or read. */
static bool count(const char *name, unsigned long *total)
{
    bool is_input = strcmp(name, "-") == 0;
    unsigned long lines = 0;
    int byte;
    FILE *file = is_input ? stdin : fopen(name, "r");
    if (file == NULL) {
        fprintf(stderr, "wc: %s: %s\n", name, strerror(errno));
        return false;
    }
    while ((byte = getc(file)) != EOF)
        lines += byte == '\n';
    bool is_read = !ferror(file);
    if (!is_input)
        fclose(file);
    if (!is_read) {
        fprintf(stderr, "wc: %s: it can't be read\n", name);
        return false;
    }
    printf("%7lu %s\n", lines, name);
    *total += lines;
    return true;
}

int main(int argc, char **argv)
{
    unsigned long total = 0;
    bool is_whole = true;
    if (argc < 2)
        return count("-", &total) ? 0 : 1;
    for (int i = 1; i < argc; ++i)
        is_whole &= count(argv[i], &total);
    if (argc > 2)
        printf("%7lu total\n", total);
    return is_whole ? 0 : 1;
}
