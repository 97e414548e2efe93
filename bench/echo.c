// Copies lines from standard input to standard output: what reading and writing lines costs at the least.
#define _GNU_SOURCE
#include <stdio.h>
#include <stdlib.h>

int main(void) {
    char *line = NULL;
    size_t room = 0;
    ssize_t size;
    while ((size = getline(&line, &room, stdin)) > 0) {
        if (fwrite(line, 1, (size_t)size, stdout) != (size_t)size) {
            return 1;
        }
    }
    free(line);
    return fflush(stdout) == 0 ? 0 : 1;
}
