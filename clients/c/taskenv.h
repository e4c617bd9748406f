/* The task environment of a process, for C and C++: which work may start now, whether a post is accepted, and whom to wake.

   It knows of no thread, lock or closure. The threads are the caller's, and each acts as one seat: seat 0 is the driver, the
   seats from 1 on are workers, and the plan's last seat is the guest, for threads of no seat, which may post and takes nothing.
   Beside a task's number the caller keeps what the task really does.

   Memory and order, which the caller owes and nothing checks:
   - The memory that is handed to live_open has live_size() bytes, is aligned to 16, and is nobody else's until live_close.
   - Calls on it come one at a time, as under a lock, and none comes before live_open or after live_close.
   - A request and an answer lie apart from it and from one another, and each is nobody else's during the call.
   - malloc, realloc and free are of one allocator. All memory is asked for by live_open, and is given back by live_close.

   A request never breaks anything else: what its seat may not ask now, what it names that is not declared, and numbers that
   mean nothing are answered by LIVE_MISUSE, and then nothing was changed and nobody is to be woken. */
#ifndef TASKENV_H
#define TASKENV_H

#include <stddef.h>
#include <stdint.h>

#ifdef __cplusplus
extern "C" {
#endif

/* No task, where a request or an answer could name one. */
#define LIVE_NONE UINT32_MAX

/* The calls: who may make each, and when, what it names, and what it makes or answers. "The driver" may while it runs no main
   task and holds no item, and until shutdown is done, where nothing else is said. */
enum live_call_code {
    /* The driver, the guest, or a seat that runs a task (seat) posts a new task to a runner (place), with a delay in microseconds
       (time), at most 1,000,000,000,000. The answer names the task (task), and says whether it is accepted (ok). LIVE_FULL: no
       task is left. */
    LIVE_POST = 1,
    /* The same to a main queue (place). */
    LIVE_MAIN,
    /* The driver has read the clock (time, in microseconds), also amid a task or an item. The moment (value) is the reading,
       raised to the last moment and lowered to 2^62. */
    LIVE_TICK,
    /* A worker that does nothing (seat) asks for work: a task, with what it found (LIVE_DID_TAKE), or an item of a job
       (LIVE_DID_JOB_TAKE). LIVE_NOTHING; LIVE_OVER once shutdown is done. */
    LIVE_TAKE,
    /* A worker (seat) has ended its task, which has no scope open. The answer has what the task leaves (value). */
    LIVE_END,
    /* A worker's task (seat) opens a blocking scope (word: a live_scope). It has none, and its runner may block. */
    LIVE_ENTER,
    /* A worker's task (seat) closes its blocking scope. */
    LIVE_LEAVE,
    /* The driver puts another policy in force (word: a live_policy). */
    LIVE_POLICY,
    /* The driver gives a runner (place) another priority (word: a live_priority). */
    LIVE_REPRIO,
    /* The driver sets a fence (word: a live_fence) on a main queue (place). */
    LIVE_FENCE,
    /* The driver removes the fence of a main queue (place). */
    LIVE_UNFENCE,
    /* The driver votes (on) on a main queue (place) as one of its voters (word). */
    LIVE_VOTE,
    /* The driver puts a main queue (place) in another class (word), from 0 to 7. */
    LIVE_RANK,
    /* The driver closes a main queue (place): its tasks that have not started are dropped. */
    LIVE_CLOSE,
    /* The driver asks for a main task. LIVE_DID_MAIN_TAKE, or LIVE_DID_MAIN_NONE where there is none to take. */
    LIVE_MAIN_TAKE,
    /* The driver has ended its main task. */
    LIVE_MAIN_END,
    /* The driver posts a job (place), once. The answer says whether it is accepted (ok). */
    LIVE_JOB_POST,
    /* The driver, which joins a job (place), asks for an item of it. LIVE_NOTHING. */
    LIVE_JOB_TAKE,
    /* A seat (seat), of a worker or the driver, has ended its item. The answer has the item's value, and whether the seat goes on
       (ok) with the next one (next). */
    LIVE_JOB_STEP,
    /* The driver cancels a job (place) that was posted. */
    LIVE_JOB_CANCEL,
    /* The driver asks whether nobody is inside a job (place) any more that it has cancelled. LIVE_NOT_YET. */
    LIVE_CANCELLED,
    /* The driver asks for the reply of a job (place) that was posted: word, and the sum of its items' values (value). LIVE_NOT_YET. */
    LIVE_JOINED,
    /* The driver asks whether the pool has nothing to do. LIVE_NOT_YET. */
    LIVE_IDLE,
    /* The driver starts shutdown, once. */
    LIVE_SHUTDOWN,
    /* The driver asks whether nothing blocks shutdown any more, which was started, and ends it. LIVE_BLOCKED. */
    LIVE_DONE
};

/* The kinds of entries, in the order of the log's formats: what was made. */
enum live_kind {
    LIVE_DID_POST = 1,   /* task, place (runner), value (delay), ok */
    LIVE_DID_MAIN,       /* task, place (queue), value (delay), ok */
    LIVE_DID_TICK,       /* value (moment) */
    LIVE_DID_TAKE,       /* task, place (runner), value (found) */
    LIVE_DID_END,        /* task, value (left) */
    LIVE_DID_ENTER,      /* task, word (scope) */
    LIVE_DID_LEAVE,      /* task */
    LIVE_DID_POLICY,     /* word (policy) */
    LIVE_DID_REPRIO,     /* place (runner), word (priority) */
    LIVE_DID_FENCE,      /* place (queue), word (fence) */
    LIVE_DID_UNFENCE,    /* place (queue) */
    LIVE_DID_VOTE,       /* place (queue), word (voter), ok (on) */
    LIVE_DID_RANK,       /* place (queue), word (class) */
    LIVE_DID_CLOSE,      /* place (queue) */
    LIVE_DID_MAIN_TAKE,  /* task, place (queue), value (found) */
    LIVE_DID_MAIN_END,   /* task, value (left) */
    LIVE_DID_MAIN_NONE,  /* nothing */
    LIVE_DID_JOB_POST,   /* place (job), ok */
    LIVE_DID_JOB_TAKE,   /* place (job), id, item */
    LIVE_DID_JOB_STEP,   /* place (job), id, item, value (of the item), ok (goes on), next (item) */
    LIVE_DID_JOB_CANCEL, /* place (job) */
    LIVE_DID_CANCELLED,  /* place (job) */
    LIVE_DID_JOINED,     /* place (job), word (reply), value (sum, where it is finished) */
    LIVE_DID_IDLE,       /* nothing */
    LIVE_DID_SHUTDOWN,   /* nothing */
    LIVE_DID_DONE        /* nothing */
};

/* What came of a request. */
enum live_status {
    LIVE_MADE = 0, /* an entry was made: kind, and what belongs to it */
    LIVE_MISUSE,   /* the seat may not ask this now, or the request means nothing; nothing was changed */
    LIVE_FULL,     /* no task is left to be handed out, or 2^32 - 1 entries were made; nothing was changed */
    LIVE_NOTHING,  /* there is nothing that the seat may take now */
    LIVE_OVER,     /* shutdown is done: there will be nothing to take any more */
    LIVE_NOT_YET,  /* it has not come: count, ready */
    LIVE_BLOCKED,  /* shutdown is blocked: count */
    LIVE_RESTS,    /* of a rest: the seat is noted, and its thread may sleep once the lock is free */
    LIVE_HAS_COME  /* of a rest: what the call asks for has come, the call waits for nothing, or shutdown is done; make the call */
};

/* Whom to wake once the lock is free. A wake that comes before its seat's thread sleeps must not be lost. */
enum live_wake {
    LIVE_NOBODY = 0,
    LIVE_ONE,     /* one seat: woken */
    LIVE_EVERYONE /* everyone: shutdown is done */
};

/* What came of a plan. */
enum live_opening {
    LIVE_OPENED = 0,
    LIVE_OUT_OF_MEMORY, /* nothing is left made */
    LIVE_NO_PLAN,       /* the text is no script: line, and the number of the rule that it breaks; line 0: over 33,554,432 bytes */
    LIVE_HAS_ACTIONS,   /* a plan has none: the line of the first one */
    LIVE_GUEST_RUNNER   /* a runner (number) is bound to the last seat, which is the guest's */
};

/* What stands in `word`. */
enum live_scope { LIVE_MAY_BLOCK = 0, LIVE_WILL_BLOCK };
enum live_policy { LIVE_ALL = 0, LIVE_FOREGROUND, LIVE_NO_WORK };
enum live_priority { LIVE_BEST_EFFORT = 0, LIVE_USER_VISIBLE, LIVE_USER_BLOCKING };
enum live_fence { LIVE_NOW = 0, LIVE_START };
enum live_reply { LIVE_REFUSED = 0, LIVE_FINISHED, LIVE_JOB_CANCELLED, LIVE_STOPPED };

/* What is asked. What a call does not name is not looked at. A post always names something: with `task` left 0 it is task 0. */
struct live_request {
    uint32_t call;  /* a live_call_code */
    uint32_t rests; /* 0: the call is made; 1: the call's seat rests until it would be answered. A take, idle, joined, cancelled
                       and done are waited for; the driver rests for the last one that it asked to */
    uint32_t by;    /* the seat whose thread makes the call, which is awake from then on; a rest is the call's own seat's */
    uint32_t seat;  /* the call's seat, of post, main, take, end, enter, leave, job_step: else it is the driver's */
    uint32_t task;  /* post, main: LIVE_NONE, and the core hands out a task; or the task that is posted, which was not before */
    uint32_t place; /* the runner, queue or job */
    uint32_t word;  /* the scope, policy, priority or fence; the number of a voter or a class */
    uint32_t on;    /* of a vote: 1 is on, 0 is off */
    uint64_t time;  /* of a post the delay, of a tick the reading, in microseconds */
};

/* What is answered. What an answer does not tell is 0, and the task LIVE_NONE. */
struct live_answer {
    uint32_t status; /* a live_status */
    uint32_t kind;   /* where an entry was made, its live_kind; else 0 */
    uint32_t task;   /* its task */
    uint32_t place;  /* its runner, queue or job */
    uint32_t id;     /* of a job's item: the number that the seat has inside the job */
    uint32_t item;   /* the item of the job */
    uint32_t next;   /* where the seat goes on with a job: its next item */
    uint32_t word;   /* its scope, policy, priority, fence or reply; the number of its voter or class */
    uint32_t ok;     /* post, main, job_post: 1 where it is accepted; vote: 1 where it is on; job_step: 1 where the seat goes on */
    uint32_t count;  /* not yet: how many seats run what is waited for; blocked: how many pieces of work block shutdown */
    uint32_t ready;  /* not yet: 1 where a seat could take more of it */
    uint32_t wake;   /* a live_wake: whom to wake once the lock is free, whatever the status is */
    uint32_t woken;  /* of LIVE_ONE: the seat */
    uint64_t value;  /* delay, moment, what was found or is left, an item's value, a job's sum */
};

/* Why a plan was not opened: see live_opening. What is not told is 0; lines are counted from 1. */
struct live_opened {
    uint32_t reason; /* a live_opening */
    uint32_t line;
    uint32_t number;
};

/* How many bytes of memory live_open needs to be handed. */
size_t live_size(void);

/* Opens the environment of a plan in the memory: the text, of so many bytes, is a script that declares what there is, and has no
   actions (docs/formats.md). Its last worker seat is the guest's. Answers the reason, which it also writes. Where that is not
   LIVE_OPENED, no environment lies in the memory: each request of it is a misuse, and closing it does nothing. */
uint32_t live_open(unsigned char *room, const unsigned char *plan, size_t length, struct live_opened *opened);

/* Does what is asked, and answers it. */
void live_call(unsigned char *core, const struct live_request *request, struct live_answer *answer);

/* The environment ends, whatever it was at, and gives its memory back. The memory that was handed in is the caller's again. */
void live_close(unsigned char *core);

#ifdef __cplusplus
}
#endif
#endif
