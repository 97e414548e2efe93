// Runs a program and writes the most memory that it held at once, in KiB, into a file: most FILE PROGRAM WORD...
//
// To the system what a process held counts as held by each child that it starts as well, so a large script that asks for the most
// of its child is told its own. This is a small program to stand between the two. Its status is that of the program.
#define _GNU_SOURCE
#include <signal.h>
#include <stdio.h>
#include <sys/prctl.h>
#include <sys/resource.h>
#include <sys/wait.h>
#include <unistd.h>

int main(int count, char **words) {
    struct rusage used;
    int status;
    pid_t child = count > 2 ? fork() : -1;
    if (child == 0) {
        prctl(PR_SET_PDEATHSIG, SIGKILL);
        execvp(words[2], words + 2);
        _exit(127);
    }
    if (child < 0 || wait4(child, &status, 0, &used) < 0) {
        return 1;
    }
    FILE *file = fopen(words[1], "w");
    if (file == NULL || fprintf(file, "%ld\n", used.ru_maxrss) < 0 || fclose(file) != 0) {
        return 1;
    }
    return WIFEXITED(status) ? WEXITSTATUS(status) : 1;
}
