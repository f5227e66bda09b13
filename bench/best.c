// Runs two programs in turn, RUNS times each, as `PROGRAM answer 0 1` with INPUT as the standard input and a file as
// the standard output, and prints for each its best time in microseconds and its highest peak memory in KiB. Both files
// are open before the time begins: to empty one may take longer than a program runs.
//
//     best RUNS INPUT OUTPUT PROGRAM OUTPUT PROGRAM
#define _GNU_SOURCE
#include <fcntl.h>
#include <spawn.h>
#include <stdio.h>
#include <stdlib.h>
#include <sys/resource.h>
#include <sys/wait.h>
#include <time.h>
#include <unistd.h>

extern char **environ;

static double now(void) {
    struct timespec t;
    clock_gettime(CLOCK_MONOTONIC, &t);
    return t.tv_sec * 1e6 + t.tv_nsec / 1e3;
}

static int opened(const char *path, int flags) {
    int file = open(path, flags | O_CLOEXEC, 0644);
    if (file < 0) {
        fprintf(stderr, "%s doesn't open\n", path);
        exit(2);
    }
    return file;
}

static double run(const char *input, const char *output, char *program, long *memory) {
    int in = opened(input, O_RDONLY), out = opened(output, O_WRONLY | O_CREAT | O_TRUNC);
    posix_spawn_file_actions_t files;
    posix_spawn_file_actions_init(&files);
    posix_spawn_file_actions_adddup2(&files, in, 0);
    posix_spawn_file_actions_adddup2(&files, out, 1);
    char *words[] = {program, "answer", "0", "1", NULL};
    pid_t child;
    int status;
    struct rusage usage;
    double start = now();
    if (posix_spawn(&child, program, &files, NULL, words, environ) != 0 || wait4(child, &status, 0, &usage) != child) {
        fprintf(stderr, "%s doesn't run\n", program);
        exit(2);
    }
    double time = now() - start;
    posix_spawn_file_actions_destroy(&files);
    close(in);
    close(out);
    if (!WIFEXITED(status) || WEXITSTATUS(status) != 0) {
        fprintf(stderr, "%s ends with %d\n", program, WIFEXITED(status) ? WEXITSTATUS(status) : -1);
        exit(2);
    }
    *memory = usage.ru_maxrss;
    return time;
}

int main(int count, char **words) {
    if (count != 7) return 64;
    double best[2] = {1e18, 1e18};
    long peak[2] = {0, 0};
    for (int turn = atoi(words[1]); turn > 0; turn--) {
        for (int one = 0; one < 2; one++) {
            long memory;
            double time = run(words[2], words[3 + 2 * one], words[4 + 2 * one], &memory);
            if (time < best[one]) best[one] = time;
            if (memory > peak[one]) peak[one] = memory;
        }
    }
    printf("%.0f %ld %.0f %ld\n", best[0], peak[0], best[1], peak[1]);
    return 0;
}
