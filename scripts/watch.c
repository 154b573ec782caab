/* Runs a command, and prints its status and the most memory that it has resident, in KiB, on standard error. A process
   that Python starts counts the memory of Python too. */
#include <stdio.h>
#include <sys/resource.h>
#include <sys/wait.h>
#include <unistd.h>

int main(int count, char **words) {
    struct rusage usage;
    int status;
    pid_t child = fork();
    if (child == 0) {
        execv(words[1], words + 1);
        _exit(127);
    }
    if (count < 2 || wait4(child, &status, 0, &usage) < 0) return 1;
    fprintf(stderr, "\n%d %ld\n", WEXITSTATUS(status), usage.ru_maxrss);
    return 0;
}
