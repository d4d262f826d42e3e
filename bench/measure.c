/* measure SECONDS PROGRAM WORD ..: runs the program with the streams given, for at most so many
 * seconds of processor time, and writes on standard error its seconds of processor time, its peak
 * memory in kB, and its status, which is 128 and the signal where one ended it. It is small, since
 * the peak of a process counts that of the one that started it. */
#include <stdio.h>
#include <stdlib.h>
#include <sys/resource.h>
#include <sys/wait.h>
#include <unistd.h>

static double seconds(struct timeval t) { return t.tv_sec + t.tv_usec / 1e6; }

int main(int count, char **words) {
    if (count < 3) return 2;
    pid_t child = fork();
    if (child < 0) return 7;
    if (child == 0) {
        struct rlimit limit = {atoi(words[1]), atoi(words[1])};
        setrlimit(RLIMIT_CPU, &limit);
        execv(words[2], words + 2);
        _exit(127);
    }
    int status;
    struct rusage used;
    if (wait4(child, &status, 0, &used) != child) return 7;
    fprintf(stderr, "%.3f %ld %d\n", seconds(used.ru_utime) + seconds(used.ru_stime),
            used.ru_maxrss,
            WIFSIGNALED(status) ? 128 + WTERMSIG(status) : WEXITSTATUS(status));
    return 0;
}
