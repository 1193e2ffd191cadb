/* Runs a program with its words, and tells on standard error what it and all that it began and waited for used: page
 * faults that needed no disk, and the most memory that one of them had, in KiB. This program is small: of one that a
 * larger one begins, as Python, the system tells at least that one's memory.
 *
 *   usage PROGRAM WORDS..      the exit status is the program's */
#include <stdio.h>
#include <sys/resource.h>
#include <sys/wait.h>
#include <unistd.h>

int main(int argc, char **argv) {
    if (argc < 2) return 125;
    pid_t child = fork();
    if (child == 0) {
        execv(argv[1], argv + 1);
        _exit(127);
    }
    int status;
    struct rusage used;
    if (child < 0 || wait4(child, &status, 0, &used) != child) return 125;
    fprintf(stderr, "%ld %ld\n", used.ru_minflt, used.ru_maxrss);
    return WIFEXITED(status) ? WEXITSTATUS(status) : 128 + WTERMSIG(status);
}
