/* One environment, two tasks, one shutdown, and what each request is answered; and three plans that are refused. */
#include "taskenv.h"

#include <inttypes.h>
#include <stdio.h>
#include <stdlib.h>
#include <string.h>

static const char plan[] = "workers 2\nrunner 0 sequenced user_visible block\ntask 0 add 1\ntask 1 add 1\n";

/* Asks, by the thread of the call's seat, and prints the answer. */
static void ask(unsigned char *core, const char *what, uint32_t call, uint32_t seat)
{
    struct live_request request = {call, 0, seat, seat, LIVE_NONE, 0, 0, 0, 0};
    struct live_answer answer;
    live_call(core, &request, &answer);
    printf("%-8s status %" PRIu32 " kind %" PRIu32, what, answer.status, answer.kind);
    printf(" ok %" PRIu32 " value %" PRIu64, answer.ok, answer.value);
    if (answer.task != LIVE_NONE)
        printf(" task %" PRIu32, answer.task);
    printf("%s\n", answer.wake == LIVE_EVERYONE ? ", wakes everyone" : answer.wake == LIVE_ONE ? ", wakes one" : "");
}

/* Asks for a plan that is refused, and prints why, and in which line. */
static void ask_for(unsigned char *core, const char *what, const char *text)
{
    struct live_opened opened;
    uint32_t reason = live_open(core, (const unsigned char *)text, strlen(text), &opened);
    printf("%-8s refused %" PRIu32 " line %" PRIu32 " number %" PRIu32 "\n", what, reason, opened.line, opened.number);
    live_close(core);
}

int main(void)
{
    unsigned char *core = aligned_alloc(16, (live_size() + 15) / 16 * 16);
    struct live_opened opened;
    if (!core || live_open(core, (const unsigned char *)plan, strlen(plan), &opened) != LIVE_OPENED)
        return 1;
    ask(core, "post", LIVE_POST, 0);
    ask(core, "post", LIVE_POST, 2);
    ask(core, "take", LIVE_TAKE, 1);
    ask(core, "take", LIVE_TAKE, 2);
    ask(core, "end", LIVE_END, 1);
    ask(core, "shutdown", LIVE_SHUTDOWN, 0);
    ask(core, "done", LIVE_DONE, 0);
    ask(core, "take", LIVE_TAKE, 1);
    ask(core, "end", LIVE_END, 1);
    ask(core, "done", LIVE_DONE, 0);
    ask(core, "take", LIVE_TAKE, 1);
    live_close(core);
    ask_for(core, "action", "# a comment\n\nrunner 0 parallel user_visible skip\ntask 0 add 1\r\npost 0 0 0\n");
    ask_for(core, "no plan", "workers 1\nno\n");
    ask_for(core, "guest", "workers 2\nrunner 0 single:2 user_visible skip\n");
    free(core);
    return 0;
}
