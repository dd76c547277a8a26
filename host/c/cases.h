/*
 * Calls with what they say: on which tables, and the refusal or the first word of the answer. host/c/readonly.c makes
 * those that store nothing, host/c/stack.c makes them all.
 */
#ifndef RREZHBUTA_CASES_H
#define RREZHBUTA_CASES_H

#include "common.h"

/* rrezhbuta_look_slot has no number of its own; in a case it goes by this one, and the slot is its answer */
#define LOOK_SLOT UINT32_MAX
#define LAST_CALL RREZHBUTA_CALL_SIGRETURN

/* Sets the tables up; they are writable then. */
typedef void scene(struct rrezhbuta_tables *tables);

struct arguments {
    uint32_t number;
    uint32_t narrow[6];
    uint64_t wide[3];
};

struct test_case {
    const char *name;
    scene *scene;
    struct arguments call;
    uint64_t refusal;
    uint64_t answer; /* the first word, where it is not refused */
};

struct outcome {
    uint64_t refusal;
    uint64_t answer[RREZHBUTA_ANSWER_WORDS];
};

/* Makes the call, with room for so many words of the answer. */
static inline void make(const struct rrezhbuta_tables *tables, const struct arguments *call, size_t room,
                        struct outcome *outcome)
{
    const uint32_t *narrow = call->narrow;
    uint64_t *processes = (uint64_t *)tables->processes;
    uint8_t *to_threads = (uint8_t *)tables->thread_buffer, *to_processes = (uint8_t *)tables->process_buffer;
    const size_t words = rrezhbuta_length(tables->process_places, RREZHBUTA_PROCESS_WORDS),
                 thread_bytes = rrezhbuta_length(tables->thread_records, RREZHBUTA_RECORD_BYTES),
                 process_bytes = rrezhbuta_length(tables->process_records, RREZHBUTA_RECORD_BYTES);
    *outcome = (struct outcome){0, {0}};
    if (call->number == LOOK_SLOT)
        outcome->answer[0] = rrezhbuta_look_slot(processes, words, to_threads, thread_bytes, to_processes,
                                                 process_bytes, tables->threads, tables->thread_places, narrow[0]);
    else
        outcome->refusal = rrezhbuta_call(processes, words, to_threads, thread_bytes, to_processes, process_bytes,
                                          outcome->answer, room, tables->threads, tables->thread_places, call->number,
                                          narrow[0], narrow[1], narrow[2], narrow[3], narrow[4], narrow[5],
                                          call->wide[0], call->wide[1], call->wide[2]);
}

/* Is it what the case says? */
static inline int as_said(const struct test_case *test, const struct outcome *outcome)
{
    return outcome->refusal == test->refusal && (test->refusal != 0 || outcome->answer[0] == test->answer);
}

/* ---- Scenes */

static inline void handled(struct rrezhbuta_tables *tables, uint32_t signal, uint64_t flags)
{
    const struct rrezhbuta_action action = {HANDLER, flags, 0};
    two(tables);
    DONE(rrezhbuta_sigaction(tables, 100, signal, &action, NULL));
}

/* signal 40 has a handler and is queued for thread 200 */
static inline void queued(struct rrezhbuta_tables *tables)
{
    handled(tables, 40, RREZHBUTA_SA_RESETHAND);
    DONE(rrezhbuta_sigqueue(tables, 1, 100, 200, 40, 7, NULL));
}

static inline void queued_for_process(struct rrezhbuta_tables *tables)
{
    two(tables);
    DONE(rrezhbuta_sigqueue(tables, 1, 100, 0, 40, 7, NULL));
}

static inline void queued_and_blocked(struct rrezhbuta_tables *tables)
{
    const uint64_t set = BIT(40);
    queued(tables);
    DONE(rrezhbuta_sigmask(tables, 200, RREZHBUTA_SIG_BLOCK, &set, NULL));
}

static inline void queued_and_stopped(struct rrezhbuta_tables *tables)
{
    queued(tables);
    DONE(rrezhbuta_kill(tables, 1, 100, 0, RREZHBUTA_SIGSTOP, NULL));
}

static inline void marked(struct rrezhbuta_tables *tables)
{
    two(tables);
    DONE(rrezhbuta_kill(tables, 1, 100, 0, 2, NULL));
}

static inline void marked_and_handled(struct rrezhbuta_tables *tables)
{
    handled(tables, 2, 0);
    DONE(rrezhbuta_kill(tables, 1, 100, 0, 2, NULL));
}

static inline void marked_stop(struct rrezhbuta_tables *tables)
{
    two(tables);
    DONE(rrezhbuta_kill(tables, 1, 100, 200, RREZHBUTA_SIGTSTP, NULL));
}

static inline void marked_cont(struct rrezhbuta_tables *tables)
{
    two(tables);
    DONE(rrezhbuta_kill(tables, 1, 100, 0, RREZHBUTA_SIGCONT, NULL));
}

static inline void full_queue(struct rrezhbuta_tables *tables)
{
    two(tables);
    for (uint64_t value = 0; value < RREZHBUTA_RECORD_LIMIT; value++)
        DONE(rrezhbuta_sigqueue(tables, 1, 100, value % 2 ? 200 : 0, 40, value, NULL));
}

/* processes 1 to so many, each with a thread of that number, then threads of process 1 up to the last place */
static inline void crowd(struct rrezhbuta_tables *tables, uint32_t processes)
{
    DONE(rrezhbuta_clear(tables));
    for (uint32_t n = 1; n <= processes; n++)
        DONE(add_user(tables, n, 0, n, 0));
    for (uint32_t n = processes + 1; n <= RREZHBUTA_THREAD_PLACES; n++)
        DONE(rrezhbuta_add_thread(tables, 1, n));
}

static inline void all_places_taken(struct rrezhbuta_tables *tables)
{
    crowd(tables, RREZHBUTA_PROCESS_PLACES);
}

static inline void all_threads_taken(struct rrezhbuta_tables *tables)
{
    crowd(tables, 1);
}

static inline void unsound(struct rrezhbuta_tables *tables)
{
    queued(tables);
    tables->processes[1].stopped = 2;
}

static inline void processes_short(struct rrezhbuta_tables *tables)
{
    queued(tables);
    tables->process_places--;
}

static inline void threads_short(struct rrezhbuta_tables *tables)
{
    queued(tables);
    tables->thread_places--;
}

static inline void thread_buffer_short(struct rrezhbuta_tables *tables)
{
    queued(tables);
    tables->thread_records--;
}

static inline void process_buffer_short(struct rrezhbuta_tables *tables)
{
    queued(tables);
    tables->process_records--;
}

/* ---- Cases */

/* a call with arguments of 32 bits alone, one with an argument of 64 bits before them, and sigaction with flags */
#define CALL(name, ...) {RREZHBUTA_CALL_##name, {__VA_ARGS__}, {0}}
#define WITH(wide, name, ...) {RREZHBUTA_CALL_##name, {__VA_ARGS__}, {wide}}
#define FLAGGED(flags, ...) {RREZHBUTA_CALL_SIGACTION, {__VA_ARGS__}, {HANDLER, flags}}
#define SLOT(thread) {LOOK_SLOT, {thread}, {0}}
#define GIVEN 1
#define NOBODY 999

/* Accepted, and something is to be stored; every call that can store has one. */
static const struct test_case storing[] = {
    {"clear", queued, CALL(CLEAR, 0), 0, RREZHBUTA_ANSWER_DONE},
    {"clear, unsound tables", unsound, CALL(CLEAR, 0), 0, RREZHBUTA_ANSWER_DONE},
    {"add_process", queued, CALL(ADD_PROCESS, 300, 1, 1, 1, 1, 400), 0, RREZHBUTA_ANSWER_DONE},
    {"add_thread", queued, CALL(ADD_THREAD, 200, 201), 0, RREZHBUTA_ANSWER_DONE},
    {"end_process, records", full_queue, CALL(END_PROCESS, 100), 0, RREZHBUTA_ANSWER_DONE},
    {"end_thread, not the last", all_places_taken, CALL(END_THREAD, 1), 0, RREZHBUTA_ANSWER_DONE},
    {"end_thread, the last", full_queue, CALL(END_THREAD, 200), 0, RREZHBUTA_ANSWER_DONE},
    {"kill, marked", queued, CALL(KILL, 1, 100, 0, 2), 0, RREZHBUTA_ANSWER_MARKED},
    {"kill, marked for a thread", queued, CALL(KILL, 1, 100, 200, 2), 0, RREZHBUTA_ANSWER_MARKED},
    {"kill, absorbed", marked, CALL(KILL, 1, 100, 0, 2), 0, RREZHBUTA_ANSWER_ABSORBED},
    {"kill, dropped", queued, CALL(KILL, 1, 100, 0, RREZHBUTA_SIGCHLD), 0, RREZHBUTA_ANSWER_DROPPED},
    {"kill, KILL", full_queue, CALL(KILL, 1, 100, 0, RREZHBUTA_SIGKILL), 0, RREZHBUTA_ANSWER_ACTED},
    {"kill, STOP", marked_cont, CALL(KILL, 1, 100, 0, RREZHBUTA_SIGSTOP), 0, RREZHBUTA_ANSWER_ACTED},
    {"kill, CONT", marked_stop, CALL(KILL, 1, 100, 0, RREZHBUTA_SIGCONT), 0, RREZHBUTA_ANSWER_MARKED},
    {"sigqueue, kept", queued, WITH(7, SIGQUEUE, 1, 100, 0, 40), 0, RREZHBUTA_ANSWER_KEPT},
    {"sigqueue, kept for a thread", queued, WITH(7, SIGQUEUE, 1, 100, 200, 41), 0, RREZHBUTA_ANSWER_KEPT},
    {"sigqueue, absorbed", marked, CALL(SIGQUEUE, 1, 100, 0, 2), 0, RREZHBUTA_ANSWER_ABSORBED},
    {"sigqueue, dropped", full_queue, CALL(SIGQUEUE, 1, 100, 0, RREZHBUTA_SIGCHLD), 0, RREZHBUTA_ANSWER_DROPPED},
    {"sigqueue, KILL", full_queue, CALL(SIGQUEUE, 1, 100, 0, RREZHBUTA_SIGKILL), 0, RREZHBUTA_ANSWER_ACTED},
    {"sigqueue, TSTP", marked_cont, CALL(SIGQUEUE, 1, 100, 200, RREZHBUTA_SIGTSTP), 0, RREZHBUTA_ANSWER_KEPT},
    {"sigaction, a handler", two, WITH(HANDLER, SIGACTION, 100, 40, GIVEN), 0, RREZHBUTA_ANSWER_OLD_ACTION},
    {"sigaction, ignore", full_queue, WITH(1, SIGACTION, 100, 40, GIVEN), 0, RREZHBUTA_ANSWER_OLD_ACTION},
    {"sigmask, way 0", two, WITH(6, SIGMASK, 200, 0, GIVEN), 0, RREZHBUTA_ANSWER_OLD_MASK},
    {"sigmask, way 1", queued_and_blocked, WITH(BIT(40), SIGMASK, 200, 1, GIVEN), 0, RREZHBUTA_ANSWER_OLD_MASK},
    {"sigmask, way 2", two, WITH(6, SIGMASK, 200, 2, GIVEN), 0, RREZHBUTA_ANSWER_OLD_MASK},
    {"take, a record by a handler that is reset", queued, CALL(TAKE, 200), 0, RREZHBUTA_ANSWER_HANDLER},
    {"take, a mark by a handler", marked_and_handled, CALL(TAKE, 200), 0, RREZHBUTA_ANSWER_HANDLER},
    {"take, end", full_queue, CALL(TAKE, 200), 0, RREZHBUTA_ANSWER_END},
    {"take, stop", marked_stop, CALL(TAKE, 200), 0, RREZHBUTA_ANSWER_STOP},
    {"take, no action", marked_cont, CALL(TAKE, 200), 0, RREZHBUTA_ANSWER_NO_ACTION},
    {"sigreturn", two, WITH(6, SIGRETURN, 200), 0, RREZHBUTA_ANSWER_OLD_MASK},
};

/* Accepted, and no table changes; a look for a slot is never refused. */
static const struct test_case asking[] = {
    {"kill, signal 0", queued, CALL(KILL, 1, 100, 0, 0), 0, RREZHBUTA_ANSWER_TESTED},
    {"kill, signal 0 to a thread", full_queue, CALL(KILL, 1, 100, 200, 0), 0, RREZHBUTA_ANSWER_TESTED},
    {"sigqueue, signal 0", queued, WITH(7, SIGQUEUE, 1, 100, 0, 0), 0, RREZHBUTA_ANSWER_TESTED},
    {"sigqueue, signal 0, full queue", full_queue, CALL(SIGQUEUE, 1, 100, 200, 0), 0, RREZHBUTA_ANSWER_TESTED},
    {"sigaction, no new action", queued, CALL(SIGACTION, 100, 40), 0, RREZHBUTA_ANSWER_OLD_ACTION},
    {"sigaction, flags of no action", queued, FLAGGED(UINT64_MAX, 100, 40), 0, RREZHBUTA_ANSWER_OLD_ACTION},
    {"sigaction, KILL asked", two, CALL(SIGACTION, 100, RREZHBUTA_SIGKILL), 0, RREZHBUTA_ANSWER_OLD_ACTION},
    {"sigmask, no set", queued_and_blocked, CALL(SIGMASK, 200, 7), 0, RREZHBUTA_ANSWER_OLD_MASK},
    {"sigpending", queued_and_blocked, CALL(SIGPENDING, 200), 0, RREZHBUTA_ANSWER_PENDING_SET},
    {"look, nothing", two, CALL(LOOK, 200), 0, RREZHBUTA_ANSWER_NEXT_NOTHING},
    {"look, a mark", marked, CALL(LOOK, 200), 0, RREZHBUTA_ANSWER_NEXT_MARK},
    {"look, a record", queued, CALL(LOOK, 200), 0, RREZHBUTA_ANSWER_NEXT_RECORD},
    {"who, one can", marked, CALL(WHO, 100), 0, RREZHBUTA_ANSWER_CAN_TAKE},
    {"who, none can", queued_and_blocked, CALL(WHO, 100), 0, RREZHBUTA_ANSWER_NONE_CAN},
    {"take, nothing pending", two, CALL(TAKE, 200), 0, RREZHBUTA_ANSWER_NOTHING},
    {"take, all blocked", queued_and_blocked, CALL(TAKE, 200), 0, RREZHBUTA_ANSWER_NOTHING},
    {"take, stopped", queued_and_stopped, CALL(TAKE, 200), 0, RREZHBUTA_ANSWER_NOTHING},
    {"look_slot, the thread buffer", queued, SLOT(200), 0, 1},
    {"look_slot, the process buffer", queued_for_process, SLOT(200), 0, RREZHBUTA_BUFFER_RECORDS + 1},
    {"look_slot, a mark", marked, SLOT(200), 0, 0},
    {"look_slot, nothing", two, SLOT(200), 0, 0},
    {"look_slot, no such thread", queued, SLOT(NOBODY), 0, 0},
    {"look_slot, unsound tables", unsound, SLOT(200), 0, 0},
    {"look_slot, another length", threads_short, SLOT(200), 0, 0},
};

/* Refused with another errno than EFAULT; that one comes from the misfits below. */
static const struct test_case refused[] = {
    {"number 0", queued, {0, {100}, {0}}, RREZHBUTA_EINVAL, 0},
    {"number 15", queued, {LAST_CALL + 1, {100}, {0}}, RREZHBUTA_EINVAL, 0},
    {"add_process, id 0", two, CALL(ADD_PROCESS, 0, 1, 1, 1, 1, 400), RREZHBUTA_EINVAL, 0},
    {"add_process, large id", two, CALL(ADD_PROCESS, RREZHBUTA_LARGEST_ID + 1, 1, 1, 1, 1, 400), RREZHBUTA_EINVAL, 0},
    {"add_process, thread 0", two, CALL(ADD_PROCESS, 300, 1, 1, 1, 1, 0), RREZHBUTA_EINVAL, 0},
    {"add_process, large thread id", two, CALL(ADD_PROCESS, 300, 1, 1, 1, 1, UINT32_MAX), RREZHBUTA_EINVAL, 0},
    {"add_process, id taken", two, CALL(ADD_PROCESS, 100, 1, 1, 1, 1, 400), RREZHBUTA_EEXIST, 0},
    {"add_process, thread taken", two, CALL(ADD_PROCESS, 300, 1, 1, 1, 1, 200), RREZHBUTA_EEXIST, 0},
    {"add_process, no process place", all_places_taken, CALL(ADD_PROCESS, 300, 1, 1, 1, 1, 400), RREZHBUTA_EAGAIN, 0},
    {"add_process, no thread place", all_threads_taken, CALL(ADD_PROCESS, 300, 1, 1, 1, 1, 400), RREZHBUTA_EAGAIN, 0},
    {"add_thread, id 0", two, CALL(ADD_THREAD, 200, 0), RREZHBUTA_EINVAL, 0},
    {"add_thread, large id", two, CALL(ADD_THREAD, 200, RREZHBUTA_LARGEST_ID + 1), RREZHBUTA_EINVAL, 0},
    {"add_thread, no creator", two, CALL(ADD_THREAD, NOBODY, 201), RREZHBUTA_ESRCH, 0},
    {"add_thread, id taken", two, CALL(ADD_THREAD, 200, 2), RREZHBUTA_EEXIST, 0},
    {"add_thread, no place", all_threads_taken, CALL(ADD_THREAD, 1, 400), RREZHBUTA_EAGAIN, 0},
    {"end_process, none", queued, CALL(END_PROCESS, NOBODY), RREZHBUTA_ESRCH, 0},
    {"end_thread, none", queued, CALL(END_THREAD, NOBODY), RREZHBUTA_ESRCH, 0},
    {"kill, signal 65", queued, CALL(KILL, 1, 100, 0, RREZHBUTA_SIGNALS + 1), RREZHBUTA_EINVAL, 0},
    {"kill, no sender", queued, CALL(KILL, NOBODY, 100, 0, 2), RREZHBUTA_ESRCH, 0},
    {"kill, no target", queued, CALL(KILL, 1, NOBODY, 0, RREZHBUTA_SIGKILL), RREZHBUTA_ESRCH, 0},
    {"kill, no target thread", queued, CALL(KILL, 1, 100, NOBODY, 2), RREZHBUTA_ESRCH, 0},
    {"kill, another's thread", queued, CALL(KILL, 1, 100, 2, 2), RREZHBUTA_ESRCH, 0},
    {"kill, not allowed", queued, CALL(KILL, 100, 1, 0, RREZHBUTA_SIGKILL), RREZHBUTA_EPERM, 0},
    {"kill, signal 0 not allowed", queued, CALL(KILL, 100, 1, 0, 0), RREZHBUTA_EPERM, 0},
    {"sigqueue, signal 65", queued, CALL(SIGQUEUE, 1, 100, 0, RREZHBUTA_SIGNALS + 1), RREZHBUTA_EINVAL, 0},
    {"sigqueue, no sender", queued, CALL(SIGQUEUE, NOBODY, 100, 0, 40), RREZHBUTA_ESRCH, 0},
    {"sigqueue, no target", queued, CALL(SIGQUEUE, 1, NOBODY, 0, 40), RREZHBUTA_ESRCH, 0},
    {"sigqueue, no target thread", queued, CALL(SIGQUEUE, 1, 100, NOBODY, 40), RREZHBUTA_ESRCH, 0},
    {"sigqueue, another's thread", queued, CALL(SIGQUEUE, 1, 100, 2, 40), RREZHBUTA_ESRCH, 0},
    {"sigqueue, not allowed", queued, CALL(SIGQUEUE, 100, 1, 0, 40), RREZHBUTA_EPERM, 0},
    {"sigqueue, 32 pending", full_queue, CALL(SIGQUEUE, 1, 100, 0, 40), RREZHBUTA_EAGAIN, 0},
    {"sigqueue, 32 pending, a thread", full_queue, CALL(SIGQUEUE, 1, 100, 200, 41), RREZHBUTA_EAGAIN, 0},
    {"sigqueue, 32 pending, CONT", full_queue, CALL(SIGQUEUE, 1, 100, 0, RREZHBUTA_SIGCONT), RREZHBUTA_EAGAIN, 0},
    {"sigaction, signal 0", two, CALL(SIGACTION, 100, 0), RREZHBUTA_EINVAL, 0},
    {"sigaction, signal 65", two, CALL(SIGACTION, 100, RREZHBUTA_SIGNALS + 1), RREZHBUTA_EINVAL, 0},
    {"sigaction, KILL handled", two, CALL(SIGACTION, 100, RREZHBUTA_SIGKILL, GIVEN), RREZHBUTA_EINVAL, 0},
    {"sigaction, STOP handled", two, CALL(SIGACTION, 100, RREZHBUTA_SIGSTOP, GIVEN), RREZHBUTA_EINVAL, 0},
    {"sigaction, an unknown flag", queued, FLAGGED(8, 100, 40, GIVEN), RREZHBUTA_EINVAL, 0},
    {"sigaction, the largest flag", queued, FLAGGED(UINT64_C(1) << 63, 100, 40, GIVEN), RREZHBUTA_EINVAL, 0},
    {"sigaction, an unknown flag, no process", two, FLAGGED(8, NOBODY, 40, GIVEN), RREZHBUTA_EINVAL, 0},
    {"sigaction, no process", two, CALL(SIGACTION, NOBODY, 40), RREZHBUTA_ESRCH, 0},
    {"sigaction, no process, a handler", two, CALL(SIGACTION, NOBODY, 40, GIVEN), RREZHBUTA_ESRCH, 0},
    {"sigmask, way 3", two, CALL(SIGMASK, 200, 3, GIVEN), RREZHBUTA_EINVAL, 0},
    {"sigmask, no thread", two, CALL(SIGMASK, NOBODY, 0), RREZHBUTA_ESRCH, 0},
    {"sigmask, no thread, a set", two, CALL(SIGMASK, NOBODY, 0, GIVEN), RREZHBUTA_ESRCH, 0},
    {"sigpending, no thread", queued, CALL(SIGPENDING, NOBODY), RREZHBUTA_ESRCH, 0},
    {"look, no thread", queued, CALL(LOOK, NOBODY), RREZHBUTA_ESRCH, 0},
    {"who, no process", queued, CALL(WHO, NOBODY), RREZHBUTA_ESRCH, 0},
    {"take, no thread", queued, CALL(TAKE, NOBODY), RREZHBUTA_ESRCH, 0},
    {"sigreturn, no thread", queued, CALL(SIGRETURN, NOBODY), RREZHBUTA_ESRCH, 0},
};

/* Tables that every call refuses with EFAULT; clear looks at the lengths alone. */
static const struct misfit {
    const char *name;
    scene *scene;
    int length;
} misfits[] = {
    {"unsound tables", unsound, 0},
    {"process table short", processes_short, 1},
    {"thread table short", threads_short, 1},
    {"thread buffer short", thread_buffer_short, 1},
    {"process buffer short", process_buffer_short, 1},
};

#undef CALL
#undef WITH
#undef FLAGGED
#undef SLOT

/* ---- All of them in turn, each with the room that there is for the answer */

typedef void visitor(const struct test_case *test, size_t room);

static inline void visit_listed(visitor *visit, const struct test_case *cases, size_t count)
{
    for (size_t n = 0; n < count; n++)
        visit(&cases[n], RREZHBUTA_ANSWER_WORDS);
}

static inline const struct test_case *found(uint32_t number, const struct test_case *cases, size_t count)
{
    for (size_t n = 0; n < count; n++)
        if (cases[n].call.number == number)
            return &cases[n];
    return NULL;
}

/* The first case of that number: accepted where there is such a call. */
static inline struct test_case sample(uint32_t number)
{
    const struct test_case *first = found(number, storing, COUNT(storing));
    if (first == NULL)
        first = found(number, asking, COUNT(asking));
    if (first == NULL)
        first = found(number, refused, COUNT(refused));
    CHECK(first != NULL);
    return *first;
}

static inline void visit_misfit(visitor *visit, const struct misfit *misfit)
{
    char name[80];
    for (uint32_t number = 0; number <= LAST_CALL + 1; number++) {
        struct test_case derived = sample(number);
        snprintf(name, sizeof name, "%s, %s", derived.name, misfit->name);
        derived.name = name;
        derived.scene = misfit->scene;
        derived.refusal = RREZHBUTA_EFAULT;
        if (number != RREZHBUTA_CALL_CLEAR || misfit->length)
            visit(&derived, RREZHBUTA_ANSWER_WORDS);
    }
}

static inline void visit_roomless(visitor *visit)
{
    char name[80];
    for (uint32_t number = RREZHBUTA_CALL_CLEAR; number <= LAST_CALL; number++) {
        struct test_case derived = sample(number);
        snprintf(name, sizeof name, "%s, no room for the answer", derived.name);
        derived.name = name;
        derived.refusal = RREZHBUTA_EINVAL;
        visit(&derived, RREZHBUTA_ANSWER_WORDS - 1);
        visit(&derived, 0);
    }
}

/* Every case that stores nothing. */
static inline void visit_idle(visitor *visit)
{
    visit_listed(visit, asking, COUNT(asking));
    visit_listed(visit, refused, COUNT(refused));
    for (size_t n = 0; n < COUNT(misfits); n++)
        visit_misfit(visit, &misfits[n]);
    visit_roomless(visit);
}

#endif
