/* Runs a program and prints, on standard error, the most memory that it held at once, in KiB. A small
 * program starts it, since what the starter holds counts too until the other program has begun. */
#include <stdio.h>
#include <stdlib.h>
#include <sys/resource.h>
#include <sys/wait.h>
#include <unistd.h>

int main(int count, char **words) {
    struct rusage used;
    int status;
    if (count < 2) return 2;
    pid_t child = fork();
    if (child < 0) return 2;
    if (child == 0) {
        execv(words[1], words + 1);
        _exit(127);
    }
    if (wait4(child, &status, 0, &used) != child) return 2;
    fprintf(stderr, "%ld\n", used.ru_maxrss);
    return WIFEXITED(status) ? WEXITSTATUS(status) : 2;
}
