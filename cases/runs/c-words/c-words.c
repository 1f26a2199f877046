/* Prints its words, a line each: what a launch file says that is no text becomes one. It reads the last line of its input, too. */
#include <stdio.h>

int main(int argc, char **argv)
{
    char line[32];
    for (int at = 0; at < argc; ++at)
        printf("[%s]\n", argv[at]);
    while (fgets(line, sizeof line, stdin) != NULL) {
        printf("<%s>\n", line);
        fflush(stdin); /* what was read ahead stays */
    }
    return argv[argc] != NULL;
}
