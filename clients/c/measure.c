/* What a post, a take and an end take together, on one thread, where 10,000 tasks wait: of one sequence, and of a parallel runner, where
   each waits for itself. It prints the least of seven rounds, in microseconds of processor time, of rounds in one environment and of
   rounds that have one each.

     cc -O2 -I out/library clients/c/measure.c out/library/libtaskenv.a -o measure && ./measure */
#include "taskenv.h"

#include <stdio.h>
#include <stdlib.h>
#include <string.h>
#include <time.h>

enum { WAITING = 10000, ROUNDS = 7, SHORT = 7000, LONG = 40000, WORKERS = 8, GUEST = WORKERS + 1, TASKS = 65536 };

static unsigned char *core;

static void ask(uint32_t call, uint32_t seat)
{
    struct live_request request = {call, 0, seat, seat, LIVE_NONE, 0, 0, 0, 0};
    struct live_answer answer;
    live_call(core, &request, &answer);
    if (answer.status != LIVE_MADE) {
        fprintf(stderr, "measure: call %u was answered %u\n", (unsigned)call, (unsigned)answer.status);
        exit(1);
    }
}

/* An environment in which so many tasks wait. */
static void begin(const char *runner)
{
    static char plan[TASKS * 24];
    struct live_opened opened;
    char *at = plan + sprintf(plan, "workers %d\nrunner 0 %s user_visible skip\n", GUEST, runner);
    for (int task = 0; task < TASKS; ++task)
        at += sprintf(at, "task %d add 1\n", task);
    if (live_open(core, (const unsigned char *)plan, strlen(plan), &opened) != LIVE_OPENED)
        exit(1);
    for (int task = 0; task < WAITING; ++task)
        ask(LIVE_POST, GUEST);
}

/* What one of so many triples takes. */
static double round_of(int count)
{
    clock_t from = clock();
    for (int made = 0; made < count; ++made) {
        ask(LIVE_POST, GUEST);
        ask(LIVE_TAKE, 1);
        ask(LIVE_END, 1);
    }
    return (double)(clock() - from) * 1e6 / CLOCKS_PER_SEC / count;
}

static void measure(const char *name, const char *runner)
{
    double in_one = 1e9, alone = 1e9;
    begin(runner);
    for (int round = 0; round < ROUNDS; ++round) {
        double took = round_of(SHORT);
        in_one = took < in_one ? took : in_one;
    }
    live_close(core);
    for (int round = 0; round < ROUNDS; ++round) {
        begin(runner);
        double took = round_of(LONG);
        alone = took < alone ? took : alone;
        live_close(core);
    }
    printf("%-18s %.3f in rounds of %d, %.3f in rounds of %d\n", name, in_one, SHORT, alone, LONG);
}

int main(void)
{
    core = aligned_alloc(16, (live_size() + 15) / 16 * 16);
    if (!core)
        return 1;
    measure("one sequence", "sequenced");
    measure("a parallel runner", "parallel");
    free(core);
    return 0;
}
