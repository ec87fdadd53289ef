/* points SECONDS: a search call a line, as tools/second's line mode has it; for each the number of points of its set in
 * its box by isl, and the CPU seconds of isl_set_count_val, a short one repeated; `time -` where it takes more than
 * SECONDS. The set with its box is built before the clock starts. */
#define _GNU_SOURCE
#include "asked.h"
#include "column.h"
#include <isl/set.h>
#include <isl/val.h>
#include <sys/resource.h>
#include <sys/wait.h>
#include <unistd.h>

static isl_set *in_box(const asked *a)
{
    static set s, box;
    if (set_decode(&s, (int)a->n, a->set, a->length)) exit(2);
    box.n = (int)a->n;
    box.count = 1;
    box.basic[0].cons = 2 * box.n;
    for (int j = 0; j < box.n; j++) {
        constraint *r = &box.basic[0].con[2 * j];
        r[0].constant = -a->side[0][j];
        r[0].coefficient[j] = 1;
        r[1].constant = a->side[1][j];
        r[1].coefficient[j] = -1;
    }
    return isl_set_intersect(COLUMN.load(&s, NULL, 0), COLUMN.load(&box, NULL, 0));
}

/* in a process of its own: isl keeps what it finds out about a set */
static void counted(const asked *a)
{
    COLUMN.init();
    isl_set *s = in_box(a);
    double start = seconds(), all;
    long points = 0;
    int calls = 0;
    do {
        isl_val *v = isl_set_count_val(s);
        points = v ? isl_val_get_num_si(v) : -1;
        isl_val_free(v);
        calls++;
        all = seconds() - start;
    } while (all < ENOUGH);
    printf("%ld %.9f\n", points, all / calls);
    fflush(stdout);
}

int main(int argc, char **argv)
{
    static asked a;
    char *line = NULL;
    size_t size = 0;
    rlim_t most = argc > 1 ? (rlim_t)atoi(argv[1]) : 10;
    while (getline(&line, &size, stdin) > 0) {
        int status = 0;
        read_call(line, &a);
        pid_t child = fork();
        if (child == 0) {
            struct rlimit limit = {most, most + 1};
            setrlimit(RLIMIT_CPU, &limit);
            counted(&a);
            _exit(0);
        }
        waitpid(child, &status, 0);
        if (status) puts("time -");
        fflush(stdout);
    }
    free(line);
    return 0;
}
