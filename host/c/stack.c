/*
 * How much stack a call takes. It is made in a thread whose stack is painted up to the thread's own frame; how deep the
 * paint is gone afterwards is what was used, the frame of the function that makes the call counted in. Prints the most
 * that the cases of each function took, and ends with status 1 where one is over RREZHBUTA_STACK.
 */
#define _DEFAULT_SOURCE

#include <pthread.h>
#include <stdbool.h>

#include "cases.h"

/* more than any call takes; the check of the paint says so if it is not */
#define STACK_BYTES (512 * 1024)
/* more than the frame of `in_painted_stack`, which must not paint over itself; a call that takes less counts as this */
#define OWN_FRAME 512
#define ROWS (LAST_CALL + 3)

/* The check alone, from libsound.a; hosts do not link it. */
bool rrezhbuta_sound(const uint64_t *processes, size_t process_words, const uint64_t *threads, size_t thread_words,
                     const uint8_t *thread_buffer, size_t thread_bytes, const uint8_t *process_buffer,
                     size_t process_bytes);

static _Alignas(4096) unsigned char stack[STACK_BYTES];
static struct rrezhbuta_store store;

static const char *const names[ROWS] = {
    "no such call", "clear",    "add_process", "add_thread", "end_process", "end_thread",
    "kill",         "sigqueue", "sigaction",   "sigmask",    "sigpending",  "look",
    "who",          "take",     "sigreturn",   "look_slot",  "check",
};
/* the most that an accepted one took, and a refused one */
static size_t most[ROWS][2];

struct job {
    void (*run)(struct job *);
    const struct rrezhbuta_tables *tables;
    const struct test_case *test;
    size_t room;
    struct outcome outcome;
    unsigned char paint;
    unsigned char *frame;
    size_t used;
};

static __attribute__((noinline)) void run_call(struct job *job)
{
    job->frame = __builtin_frame_address(0);
    make(job->tables, &job->test->call, job->room, &job->outcome);
}

static __attribute__((noinline)) void run_check(struct job *job)
{
    job->frame = __builtin_frame_address(0);
    job->outcome.refusal =
        !rrezhbuta_sound((const uint64_t *)store.processes, RREZHBUTA_PROCESS_TABLE, (const uint64_t *)store.threads,
                         RREZHBUTA_THREAD_TABLE, (const uint8_t *)store.thread_buffer, RREZHBUTA_BUFFER_BYTES,
                         (const uint8_t *)store.process_buffer, RREZHBUTA_BUFFER_BYTES);
}

static void *in_painted_stack(void *data)
{
    struct job *job = data;
    const volatile unsigned char *top = (unsigned char *)__builtin_frame_address(0) - OWN_FRAME;
    volatile unsigned char *at = stack;
    while (at < top)
        *at++ = job->paint;
    job->run(job);
    at = stack;
    while (at < top && *at == job->paint)
        at++;
    CHECK(stack < at);
    job->used = (size_t)(job->frame - at);
    return NULL;
}

/* The bytes that the job takes. What it writes may look like one paint but not like both. */
static size_t measured(struct job *job)
{
    const unsigned char paints[] = {0xA5, 0x5A};
    size_t used = 0;
    for (size_t n = 0; n < COUNT(paints); n++) {
        struct rrezhbuta_tables tables = rrezhbuta_lend(&store);
        pthread_attr_t attributes;
        pthread_t thread;
        job->test->scene(&tables);
        job->tables = &tables;
        job->paint = paints[n];
        DONE(pthread_attr_init(&attributes));
        DONE(pthread_attr_setstack(&attributes, stack, sizeof stack));
        DONE(pthread_create(&thread, &attributes, in_painted_stack, job));
        DONE(pthread_join(thread, NULL));
        DONE(pthread_attr_destroy(&attributes));
        if (used < job->used)
            used = job->used;
    }
    return used;
}

static void note(size_t row, int refusal, size_t used)
{
    if (most[row][refusal] < used)
        most[row][refusal] = used;
}

static void call_in_painted_stack(const struct test_case *test, size_t room)
{
    const uint32_t number = test->call.number;
    const size_t row = number == LOOK_SLOT ? LAST_CALL + 1 : number <= LAST_CALL ? number : 0;
    struct job job = {.run = run_call, .test = test, .room = room};
    size_t used = measured(&job);
    CHECK(as_said(test, &job.outcome));
    note(row, test->refusal != 0, used);
}

/* The check alone on what the cases are made on, and on full tables. */
static void check_in_painted_stack(scene *on, uint64_t refusal)
{
    const struct test_case test = {.scene = on};
    struct job job = {.run = run_check, .test = &test};
    size_t used = measured(&job);
    CHECK(job.outcome.refusal == refusal);
    note(LAST_CALL + 2, refusal != 0, used);
}

/* Prints how much was taken, where there was such a case; is it over the promise? */
static size_t printed(size_t used)
{
    if (used == 0)
        printf("%10s", "-");
    else
        printf("%10zu", used);
    return used > RREZHBUTA_STACK;
}

int main(void)
{
    size_t over = 0;
    visit_listed(call_in_painted_stack, storing, COUNT(storing));
    visit_idle(call_in_painted_stack);
    check_in_painted_stack(full_queue, 0);
    check_in_painted_stack(all_places_taken, 0);
    check_in_painted_stack(unsound, 1);
    printf("%-14s%10s%10s\n", "bytes of stack", "accepted", "refused");
    for (size_t row = 0; row < ROWS; row++) {
        printf("%-14s", names[row]);
        over += printed(most[row][0]) + printed(most[row][1]);
        printf("\n");
    }
    printf("host/c/stack.c: %zu of these are over the %d bytes of the header\n", over, RREZHBUTA_STACK);
    return over != 0;
}
