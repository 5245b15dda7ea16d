/* Times the library beside the program: calls PROGRAM FILE..
 *
 * For each file, the best processor time of each call in microseconds; of a file of a mebibyte or more, also
 * the nanoseconds of gamefile_canonical for each byte, and its time as a share of the best processor time of
 * PROGRAM canon FILE. A tree without a table has no time for it. */
#define _DEFAULT_SOURCE
#include "gamefile.h"

#include <fcntl.h>
#include <stdio.h>
#include <stdlib.h>
#include <sys/resource.h>
#include <sys/wait.h>
#include <time.h>
#include <unistd.h>

enum { ROUNDS = 9, LARGE = 1 << 20, CALLS = 4, CANONICAL = 1 };

static const char *const names[CALLS] = {"check", "canonical", "hash", "table"};

/* A file, and room for what is written of it. */
typedef struct {
    uint8_t *at;
    size_t n;
    uint8_t *out;
    size_t cap;
} file;

static double now(void)
{
    struct timespec t;
    clock_gettime(CLOCK_PROCESS_CPUTIME_ID, &t);
    return (double)t.tv_sec * 1e6 + (double)t.tv_nsec / 1e3;
}

static gamefile_status make(int call, const file *f)
{
    char hash[65];
    switch (call) {
    case 0:
        return gamefile_check(f->at, f->n, NULL, NULL);
    case CANONICAL:
        return gamefile_canonical(f->at, f->n, 0, f->out, f->cap, NULL, NULL);
    case 2:
        return gamefile_hash(f->at, f->n, 0, hash, NULL);
    default:
        return gamefile_table(f->at, f->n, 0, f->out, f->cap, NULL, NULL, NULL);
    }
}

/* The microseconds of a call, over enough calls to be measured; 0 if it has no answer. */
static double time_of_call(int call, const file *f)
{
    unsigned long count, i;
    double start, taken;
    for (count = 1;; count *= 2) {
        start = now();
        for (i = 0; i < count; i++)
            if (make(call, f) != GAMEFILE_OK)
                return 0;
        taken = now() - start;
        if (taken > 50e3)
            return taken / (double)count;
    }
}

/* The microseconds of a run of the program, with its output thrown away. */
static double time_of_run(const char *program, const char *path)
{
    struct rusage used;
    int status;
    pid_t child = fork();
    if (child == 0) {
        if (dup2(open("/dev/null", O_WRONLY), 1) == 1)
            execl(program, program, "canon", path, (char *)NULL);
        _exit(127);
    }
    if (child < 0 || wait4(child, &status, 0, &used) != child || status != 0)
        exit(1);
    return (double)(used.ru_utime.tv_sec + used.ru_stime.tv_sec) * 1e6
           + (double)(used.ru_utime.tv_usec + used.ru_stime.tv_usec);
}

static void least(double *best, double found)
{
    if (*best == 0 || found < *best)
        *best = found;
}

static file read_file(const char *path)
{
    file f = {malloc(1 << 24), 0, NULL, 0};
    size_t needed = 0;
    FILE *from = fopen(path, "rb");
    if (from == NULL || f.at == NULL)
        exit(1);
    f.n = fread(f.at, 1, 1 << 24, from);
    fclose(from);
    gamefile_canonical(f.at, f.n, 0, NULL, 0, &f.cap, NULL);
    gamefile_table(f.at, f.n, 0, NULL, 0, &needed, NULL, NULL);
    f.cap = needed > f.cap ? needed : f.cap;
    f.out = malloc(f.cap);
    if (f.out == NULL)
        exit(1);
    return f;
}

static void time_file(const char *program, const char *path)
{
    file f = read_file(path);
    double best[CALLS] = {0}, run = 0;
    int call, round;
    for (round = 0; round < ROUNDS; round++) {
        for (call = 0; call < CALLS; call++)
            least(&best[call], time_of_call(call, &f));
        if (f.n >= LARGE)
            least(&run, time_of_run(program, path));
    }
    printf("%-47s %9zu bytes", path, f.n);
    for (call = 0; call < CALLS; call++)
        if (best[call] > 0)
            printf("  %s %.1f us", names[call], best[call]);
    if (f.n >= LARGE)
        printf("  canonical %.1f ns/byte, %.2f times the program", best[CANONICAL] * 1e3 / (double)f.n,
               best[CANONICAL] / run);
    printf("\n");
    free(f.at);
    free(f.out);
}

int main(int argc, char **argv)
{
    int i;
    for (i = 2; i < argc; i++)
        time_file(argv[1], argv[i]);
    return argc < 3;
}
