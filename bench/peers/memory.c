/* SPDX-License-Identifier: Apache-2.0 */
/* Runs a command, and prints the most memory that it had at once, in KiB: `memory COMMAND..`. A process counts the memory of the one that started
 * it, up to its own start, and this one has little. */
#include <fcntl.h>
#include <stdio.h>
#include <sys/resource.h>
#include <sys/wait.h>
#include <unistd.h>

int main(int argc, char **argv) {
    struct rusage used;
    pid_t child = argc > 1 ? fork() : -1;
    if (child == 0) {
        dup2(open("/dev/null", O_WRONLY), STDOUT_FILENO);
        execv(argv[1], argv + 1);
        _exit(127);
    }
    if (child < 0 || wait4(child, NULL, 0, &used) != child) return 2;
    printf("%ld\n", used.ru_maxrss);
    return 0;
}
