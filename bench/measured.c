// The processor seconds of the fastest of several runs of a command, and the most KiB that any of them held:
// measured RUNS INPUT OUTPUT COMMAND.. [-- INPUT OUTPUT COMMAND..].. Of several commands it prints a line each, and runs them in turn, so
// that all have the same share of a machine whose speed changes. It is small itself, because a parent's memory counts as that of its child.
#define _GNU_SOURCE
#include <fcntl.h>
#include <stdio.h>
#include <stdlib.h>
#include <string.h>
#include <sys/resource.h>
#include <sys/wait.h>
#include <unistd.h>

#define MOST 8

static char **commands[MOST];
static double best[MOST];
static long most[MOST];
static int count;

static void start(char **words) {
    int input = open(words[0], O_RDONLY);
    int output = open(words[1], O_WRONLY | O_CREAT | O_TRUNC, 0666);
    if (input < 0 || output < 0 || dup2(input, 0) < 0 || dup2(output, 1) < 0) _exit(126);
    execvp(words[2], words + 2);
    _exit(127);
}

static double seconds(struct timeval time) {
    return time.tv_sec + time.tv_usec / 1e6;
}

/* Runs a command once, and returns whether it did its work. */
static int run(int at, int is_first) {
    struct rusage used;
    int status;
    pid_t child = fork();
    if (child == 0) start(commands[at]);
    if (child < 0 || wait4(child, &status, 0, &used) != child || status != 0) return 0;
    double took = seconds(used.ru_utime) + seconds(used.ru_stime);
    if (is_first || took < best[at]) best[at] = took;
    if (used.ru_maxrss > most[at]) most[at] = used.ru_maxrss;
    return 1;
}

int main(int argc, char **words) {
    for (int at = 2; at < argc && count < MOST; count++) {
        commands[count] = words + at;
        while (at < argc && strcmp(words[at], "--")) at++;
        if (words + at - commands[count] < 3) return 2;
        words[at++] = NULL;
    }
    if (count == 0) return 2;
    for (int round = 0; round < atoi(words[1]); round++) {
        for (int at = 0; at < count; at++) {
            if (!run(at, round == 0)) return 1;
        }
    }
    for (int at = 0; at < count; at++) printf("%.4f %ld\n", best[at], most[at]);
    return 0;
}
