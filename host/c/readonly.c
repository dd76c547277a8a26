/*
 * The library on tables in read-only pages. A call that is refused, or that only asks, says there what it says on
 * writable ones, and does not fault: it stores nothing, not even what was there before. Each call is made in a process
 * of its own; every case that goes wrong is named, and one is enough for status 1.
 */
#define _DEFAULT_SOURCE

#include <string.h>
#include <sys/mman.h>
#include <sys/wait.h>
#include <unistd.h>

#include "cases.h"

static struct rrezhbuta_store *store; /* in pages of its own */
static struct outcome *told;          /* in a page that a child shares */
static int failures, cases;

static void *pages(size_t bytes, int shared)
{
    void *mapped = mmap(NULL, bytes, PROT_READ | PROT_WRITE, shared | MAP_ANONYMOUS, -1, 0);
    CHECK(mapped != MAP_FAILED);
    return mapped;
}

static struct rrezhbuta_tables set_up(const struct test_case *test)
{
    struct rrezhbuta_tables tables = rrezhbuta_lend(store);
    test->scene(&tables);
    return tables;
}

/* What the call says in a process whose tables are read-only; the status of that process. */
static int told_by_child(const struct test_case *test, size_t room)
{
    const struct rrezhbuta_tables tables = set_up(test);
    int status = 0;
    pid_t child = fork();
    CHECK(child != -1);
    if (child == 0) {
        if (mprotect(store, sizeof *store, PROT_READ) != 0)
            _exit(1);
        make(&tables, &test->call, room, told);
        _exit(0);
    }
    CHECK(waitpid(child, &status, 0) == child);
    return status;
}

static void report(const struct test_case *test, const char *said)
{
    printf("host/c/readonly.c: %s: %s\n", test->name, said);
    failures++;
}

static void same_on_read_only_pages(const struct test_case *test, size_t room)
{
    const struct rrezhbuta_tables tables = set_up(test);
    struct outcome writable;
    cases++;
    make(&tables, &test->call, room, &writable);
    CHECK(as_said(test, &writable));
    int status = told_by_child(test, room);
    if (WIFSIGNALED(status))
        report(test, strsignal(WTERMSIG(status)));
    else if (WEXITSTATUS(status) != 0)
        report(test, "the pages could not be made read-only");
    else if (memcmp(told, &writable, sizeof writable) != 0)
        report(test, "another answer than on writable tables");
}

/* ---- Every errno that docs/CALLS.md names for a call has a case; EFAULT comes from the misfits */

static const uint32_t named[LAST_CALL + 1][4] = {
    [RREZHBUTA_CALL_ADD_PROCESS] = {RREZHBUTA_EINVAL, RREZHBUTA_EEXIST, RREZHBUTA_EAGAIN},
    [RREZHBUTA_CALL_ADD_THREAD] = {RREZHBUTA_EINVAL, RREZHBUTA_ESRCH, RREZHBUTA_EEXIST, RREZHBUTA_EAGAIN},
    [RREZHBUTA_CALL_END_PROCESS] = {RREZHBUTA_ESRCH},
    [RREZHBUTA_CALL_END_THREAD] = {RREZHBUTA_ESRCH},
    [RREZHBUTA_CALL_KILL] = {RREZHBUTA_EINVAL, RREZHBUTA_ESRCH, RREZHBUTA_EPERM},
    [RREZHBUTA_CALL_SIGQUEUE] = {RREZHBUTA_EINVAL, RREZHBUTA_ESRCH, RREZHBUTA_EPERM, RREZHBUTA_EAGAIN},
    [RREZHBUTA_CALL_SIGACTION] = {RREZHBUTA_EINVAL, RREZHBUTA_ESRCH},
    [RREZHBUTA_CALL_SIGMASK] = {RREZHBUTA_EINVAL, RREZHBUTA_ESRCH},
    [RREZHBUTA_CALL_SIGPENDING] = {RREZHBUTA_ESRCH},
    [RREZHBUTA_CALL_LOOK] = {RREZHBUTA_ESRCH},
    [RREZHBUTA_CALL_WHO] = {RREZHBUTA_ESRCH},
    [RREZHBUTA_CALL_TAKE] = {RREZHBUTA_ESRCH},
    [RREZHBUTA_CALL_SIGRETURN] = {RREZHBUTA_ESRCH},
};

static int has_case(uint32_t number, uint32_t refusal)
{
    for (size_t n = 0; n < COUNT(refused); n++)
        if (refused[n].call.number == number && refused[n].refusal == refusal)
            return 1;
    return 0;
}

static void every_errno_has_a_case(void)
{
    for (uint32_t number = 0; number <= LAST_CALL; number++)
        for (size_t n = 0; n < COUNT(named[number]); n++)
            CHECK(named[number][n] == 0 || has_case(number, named[number][n]));
}

int main(void)
{
    every_errno_has_a_case();
    store = pages(sizeof *store, MAP_PRIVATE);
    told = pages(sizeof *told, MAP_SHARED);
    visit_idle(same_on_read_only_pages);
    printf("host/c/readonly.c: %d cases, %d of them wrong\n", cases, failures);
    return failures != 0;
}
