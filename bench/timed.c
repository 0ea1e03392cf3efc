/* Runs a command once and prints how long it took and how much memory it held at most, it or any program
 * that it ran: seconds, then KiB.
 *
 *   timed INPUT COMMAND..
 *
 * Standard input is the file INPUT; standard output goes to /dev/null. Status 0, or 1 if the command could
 * not be run or ended with another status than 0. Assumes Linux: elsewhere memory has another unit.
 */
#define _DEFAULT_SOURCE
#include <fcntl.h>
#include <stdio.h>
#include <sys/resource.h>
#include <sys/wait.h>
#include <time.h>
#include <unistd.h>

static double now(void) {
    struct timespec t;
    clock_gettime(CLOCK_MONOTONIC, &t);
    return (double)t.tv_sec + (double)t.tv_nsec / 1e9;
}

int main(int count, char **given) {
    struct rusage use;
    int status, input, output;
    if (count < 3) return 1;
    input = open(given[1], O_RDONLY);
    output = open("/dev/null", O_WRONLY);
    if (input < 0 || output < 0) return 1;
    double began = now();
    pid_t child = fork();
    if (child == 0) {
        dup2(input, 0);
        dup2(output, 1);
        close(input);
        close(output);
        execvp(given[2], given + 2);
        _exit(127);
    }
    if (child < 0 || wait4(child, &status, 0, &use) != child) return 1;
    printf("%.6f %ld\n", now() - began, use.ru_maxrss);
    return WIFEXITED(status) && WEXITSTATUS(status) == 0 ? 0 : 1;
}
