/* Every function of rrezhbuta.h on the linked library. Ends with status 1 and the line of the first check that
   fails. */

#include <string.h>

#include "common.h"

#define ALL_ONES UINT64_MAX
#define UNMASKABLE (BIT(RREZHBUTA_SIGKILL) | BIT(RREZHBUTA_SIGSTOP))
#define OLD UINT64_C(0xA5A5)

static struct rrezhbuta_store store, before;
static struct rrezhbuta_tables tables;

/* the call is refused with that errno, and every table is bit for bit as it was */
#define REFUSED(refusal, call)                                                                                         \
    (before = store, CHECK((call) == (int)(refusal)), CHECK(memcmp(&store, &before, sizeof store) == 0))

/* ---- Process 100 of user 1000 with thread 200, and process 1 of user 0 with thread 2 */

static int add(uint32_t id, uint32_t user, uint32_t thread, uint64_t mask)
{
    return add_user(&tables, id, user, thread, mask);
}

static void start(void)
{
    tables = rrezhbuta_lend(&store);
    two(&tables);
}

static uint64_t kill_sent(uint32_t thread, uint32_t signal)
{
    uint64_t sent = 0;
    DONE(rrezhbuta_kill(&tables, 1, 100, thread, signal, &sent));
    return sent;
}

static uint64_t sigqueue_sent(uint32_t thread, uint32_t signal, uint64_t value)
{
    uint64_t sent = 0;
    DONE(rrezhbuta_sigqueue(&tables, 1, 100, thread, signal, value, &sent));
    return sent;
}

static void handle(uint32_t signal, uint64_t flags, uint64_t mask)
{
    struct rrezhbuta_action action = {HANDLER, flags, mask};
    DONE(rrezhbuta_sigaction(&tables, 100, signal, &action, NULL));
}

static uint64_t mask_now(uint32_t thread)
{
    uint64_t mask = OLD;
    DONE(rrezhbuta_sigmask(&tables, thread, 7, NULL, &mask));
    return mask;
}

static struct rrezhbuta_taken take(uint32_t thread)
{
    struct rrezhbuta_taken taken;
    memset(&taken, 0xA5, sizeof taken);
    DONE(rrezhbuta_take(&tables, thread, &taken));
    return taken;
}

/* takes, and returns from the handler */
static uint64_t value_taken(uint32_t thread)
{
    struct rrezhbuta_taken taken = take(thread);
    CHECK(taken.answer == RREZHBUTA_ANSWER_HANDLER);
    DONE(rrezhbuta_sigreturn(&tables, thread, taken.saved, NULL));
    return taken.info.value;
}

static void fill_queue(void)
{
    for (uint64_t value = 0; value < RREZHBUTA_RECORD_LIMIT; value++)
        CHECK(sigqueue_sent(0, 40, value) == RREZHBUTA_ANSWER_KEPT);
}

/* ---- Adding and ending */

static void adding(void)
{
    start();
    DONE(add(300, 1001, 400, ALL_ONES));
    const struct rrezhbuta_process *process = &store.processes[2];
    CHECK(process->id == 300 && process->real == 1001 && process->effective == 1001 && process->saved == 1001);
    CHECK(process->session == 7 && process->stopped == 0 && process->marks == 0);
    CHECK(store.threads[2].id == 400 && store.threads[2].process == 300 &&
          store.threads[2].mask == (ALL_ONES & ~UNMASKABLE));
    DONE(rrezhbuta_add_thread(&tables, 400, 401));
    CHECK(store.threads[3].id == 401 && store.threads[3].process == 300 &&
          store.threads[3].mask == store.threads[2].mask);
    REFUSED(RREZHBUTA_EINVAL, add(0, 1001, 402, 0));
    REFUSED(RREZHBUTA_EINVAL, add(301, 1001, RREZHBUTA_LARGEST_ID + 1, 0));
    REFUSED(RREZHBUTA_EEXIST, add(300, 1001, 402, 0));
    REFUSED(RREZHBUTA_EEXIST, add(301, 1001, 400, 0));
    REFUSED(RREZHBUTA_EINVAL, rrezhbuta_add_thread(&tables, 999, 0));
    REFUSED(RREZHBUTA_ESRCH, rrezhbuta_add_thread(&tables, 999, 402));
    REFUSED(RREZHBUTA_EEXIST, rrezhbuta_add_thread(&tables, 400, 401));
}

static void each_user_id_has_its_place(void)
{
    start();
    struct rrezhbuta_new_process process = {300, 1, 2, 3, 4, 400, 0};
    DONE(rrezhbuta_add_process(&tables, &process));
    const struct rrezhbuta_process *added = &store.processes[2];
    CHECK(added->real == 1 && added->effective == 2 && added->saved == 3 && added->session == 4);
}

static void ending(void)
{
    start();
    DONE(rrezhbuta_add_thread(&tables, 200, 201));
    DONE(rrezhbuta_end_thread(&tables, 200));
    CHECK(store.processes[1].id == 100 && store.threads[1].id == 0);
    DONE(rrezhbuta_end_thread(&tables, 201));
    CHECK(store.processes[1].id == 0);
    REFUSED(RREZHBUTA_ESRCH, rrezhbuta_end_thread(&tables, 201));
    REFUSED(RREZHBUTA_ESRCH, rrezhbuta_end_process(&tables, 100));
    DONE(rrezhbuta_end_process(&tables, 1));
    memset(&before, 0, sizeof before);
    CHECK(memcmp(&store, &before, sizeof store) == 0);
}

static void the_tables_are_as_long_as_the_limits_say(void)
{
    tables = rrezhbuta_lend(&store);
    DONE(rrezhbuta_clear(&tables));
    for (uint32_t n = 1; n <= RREZHBUTA_PROCESS_PLACES; n++)
        DONE(add(n, n, n, 0));
    CHECK(store.processes[RREZHBUTA_PROCESS_PLACES - 1].id == RREZHBUTA_PROCESS_PLACES);
    REFUSED(RREZHBUTA_EAGAIN, add(RREZHBUTA_LARGEST_ID, 1, RREZHBUTA_LARGEST_ID, 0));
    for (uint32_t n = RREZHBUTA_PROCESS_PLACES + 1; n <= RREZHBUTA_THREAD_PLACES; n++)
        DONE(rrezhbuta_add_thread(&tables, 1, n));
    CHECK(store.threads[RREZHBUTA_THREAD_PLACES - 1].id == RREZHBUTA_THREAD_PLACES);
    REFUSED(RREZHBUTA_EAGAIN, rrezhbuta_add_thread(&tables, 1, RREZHBUTA_LARGEST_ID));
    DONE(rrezhbuta_end_process(&tables, 1));
    DONE(add(RREZHBUTA_LARGEST_ID, RREZHBUTA_LARGEST_USER, RREZHBUTA_LARGEST_ID, 0));
    CHECK(store.processes[0].id == RREZHBUTA_LARGEST_ID && store.processes[0].real == RREZHBUTA_LARGEST_USER);
}

/* a process sends itself as much as it may, the last with the lowest signal */
static void fill_own_queue(uint32_t process, uint32_t thread)
{
    for (uint64_t value = 1; value < RREZHBUTA_RECORD_LIMIT; value++)
        DONE(rrezhbuta_sigqueue(&tables, process, process, thread, 41, value, NULL));
    DONE(rrezhbuta_sigqueue(&tables, process, process, thread, 40, process, NULL));
}

static void the_buffers_are_as_long_as_the_limits_say(void)
{
    /* the buffers are lent the other way round: the end of the one is not the start of the other */
    const struct rrezhbuta_siginfo *lasts[] = {&store.thread_buffer[RREZHBUTA_BUFFER_RECORDS - 1],
                                               &store.process_buffer[RREZHBUTA_BUFFER_RECORDS - 1]};
    const uint32_t last = RREZHBUTA_PROCESS_PLACES;
    tables = rrezhbuta_lend(&store);
    tables.thread_buffer = store.process_buffer;
    tables.process_buffer = store.thread_buffer;
    for (uint32_t threads = 0; threads <= 1; threads++) {
        DONE(rrezhbuta_clear(&tables));
        for (uint32_t n = 1; n <= last; n++) {
            DONE(add(n, n, n, 0));
            fill_own_queue(n, threads ? n : 0);
        }
        CHECK(rrezhbuta_look_part(&tables, last) == lasts[threads] && lasts[threads]->value == last);
        REFUSED(RREZHBUTA_EAGAIN, rrezhbuta_sigqueue(&tables, last, last, 0, 41, 0, NULL));
    }
}

/* ---- Sending */

static void plain_sends(void)
{
    start();
    CHECK(kill_sent(0, 0) == RREZHBUTA_ANSWER_TESTED);
    CHECK(kill_sent(0, 2) == RREZHBUTA_ANSWER_MARKED);
    CHECK(store.processes[1].marks == BIT(2));
    CHECK(kill_sent(0, 2) == RREZHBUTA_ANSWER_ABSORBED);
    CHECK(kill_sent(200, RREZHBUTA_SIGCHLD) == RREZHBUTA_ANSWER_DROPPED);
    CHECK(kill_sent(200, RREZHBUTA_SIGTSTP) == RREZHBUTA_ANSWER_MARKED);
    CHECK(kill_sent(0, RREZHBUTA_SIGSTOP) == RREZHBUTA_ANSWER_ACTED);
    CHECK(store.processes[1].stopped == 1 && store.threads[1].marks == BIT(RREZHBUTA_SIGTSTP));
    CHECK(kill_sent(0, RREZHBUTA_SIGCONT) == RREZHBUTA_ANSWER_MARKED);
    CHECK(store.processes[1].stopped == 0 && store.threads[1].marks == 0);
    CHECK(kill_sent(200, RREZHBUTA_SIGKILL) == RREZHBUTA_ANSWER_ACTED);
    CHECK(store.processes[1].id == 0 && store.threads[1].id == 0);
}

static void queued_sends(void)
{
    const struct rrezhbuta_siginfo wanted = {100, 200, 40, -1, 1, 0, 7};
    start();
    CHECK(sigqueue_sent(0, 0, 7) == RREZHBUTA_ANSWER_TESTED);
    CHECK(sigqueue_sent(200, 40, 7) == RREZHBUTA_ANSWER_KEPT);
    CHECK(memcmp(&store.thread_buffer[0], &wanted, sizeof wanted) == 0);
    CHECK((uint32_t)store.thread_buffer[0].code == RREZHBUTA_SI_QUEUE);
    CHECK(sigqueue_sent(0, 2, 8) == RREZHBUTA_ANSWER_KEPT);
    CHECK(store.process_buffer[0].thread == 0 && store.process_buffer[0].value == 8);
    CHECK(sigqueue_sent(0, 2, 9) == RREZHBUTA_ANSWER_ABSORBED);
    CHECK(sigqueue_sent(0, RREZHBUTA_SIGURG, 9) == RREZHBUTA_ANSWER_DROPPED);
    CHECK(sigqueue_sent(0, RREZHBUTA_SIGSTOP, 9) == RREZHBUTA_ANSWER_ACTED);
    CHECK(store.processes[1].stopped == 1);
}

static void refused_sends(void)
{
    uint64_t sent = OLD;
    start();
    REFUSED(RREZHBUTA_EINVAL, rrezhbuta_kill(&tables, 1, 100, 0, RREZHBUTA_SIGNALS + 1, &sent));
    REFUSED(RREZHBUTA_EINVAL, rrezhbuta_sigqueue(&tables, 1, 100, 0, RREZHBUTA_SIGNALS + 1, 7, &sent));
    REFUSED(RREZHBUTA_ESRCH, rrezhbuta_kill(&tables, 9, 100, 0, 2, &sent));
    REFUSED(RREZHBUTA_ESRCH, rrezhbuta_sigqueue(&tables, 1, 100, 2, 2, 7, &sent));
    REFUSED(RREZHBUTA_EPERM, rrezhbuta_kill(&tables, 100, 1, 0, 0, &sent));
    REFUSED(RREZHBUTA_EPERM, rrezhbuta_sigqueue(&tables, 100, 1, 0, 2, 7, &sent));
    CHECK(sent == OLD);
    DONE(rrezhbuta_kill(&tables, 1, 100, 0, 2, NULL));
    DONE(rrezhbuta_sigqueue(&tables, 1, 100, 0, 40, 7, NULL));
}

static void a_full_queue(void)
{
    start();
    handle(40, 0, 0);
    fill_queue();
    REFUSED(RREZHBUTA_EAGAIN, rrezhbuta_sigqueue(&tables, 1, 100, 0, 40, 7, NULL));
    REFUSED(RREZHBUTA_EAGAIN, rrezhbuta_sigqueue(&tables, 1, 100, 200, 41, 7, NULL));
    REFUSED(RREZHBUTA_EAGAIN, rrezhbuta_sigqueue(&tables, 1, 100, 0, RREZHBUTA_SIGCONT, 7, NULL));
    CHECK(value_taken(200) == 0);
    CHECK(sigqueue_sent(0, 40, 7) == RREZHBUTA_ANSWER_KEPT);
    REFUSED(RREZHBUTA_EAGAIN, rrezhbuta_sigqueue(&tables, 1, 100, 0, 40, 7, NULL));
}

static void kill_lands_on_a_full_queue(void)
{
    for (int queued = 0; queued <= 1; queued++) {
        start();
        fill_queue();
        uint64_t sent = queued ? sigqueue_sent(0, RREZHBUTA_SIGKILL, 7) : kill_sent(0, RREZHBUTA_SIGKILL);
        CHECK(sent == RREZHBUTA_ANSWER_ACTED);
        CHECK(store.processes[1].id == 0 && store.threads[1].id == 0 && store.process_buffer[0].process == 0);
    }
}

/* ---- Actions and masks */

static void actions(void)
{
    struct rrezhbuta_action old = {OLD, OLD, OLD};
    const struct rrezhbuta_action stored = {HANDLER, RREZHBUTA_KNOWN_FLAGS, ALL_ONES};
    start();
    DONE(rrezhbuta_sigaction(&tables, 100, 40, &stored, &old));
    CHECK(old.handler == RREZHBUTA_SIG_DFL && old.flags == 0 && old.mask == 0);
    DONE(rrezhbuta_sigaction(&tables, 100, 40, NULL, &old));
    CHECK(old.handler == HANDLER && old.flags == RREZHBUTA_KNOWN_FLAGS && old.mask == (ALL_ONES & ~UNMASKABLE));
    CHECK(memcmp(&store.processes[1].actions[39], &old, sizeof old) == 0);
    DONE(rrezhbuta_sigaction(&tables, 100, RREZHBUTA_SIGKILL, NULL, &old));
    CHECK(old.handler == RREZHBUTA_SIG_DFL && old.flags == 0 && old.mask == 0);
    old.handler = OLD;
    REFUSED(RREZHBUTA_EINVAL, rrezhbuta_sigaction(&tables, 100, RREZHBUTA_SIGKILL, &stored, &old));
    REFUSED(RREZHBUTA_EINVAL, rrezhbuta_sigaction(&tables, 100, 0, NULL, &old));
    REFUSED(RREZHBUTA_ESRCH, rrezhbuta_sigaction(&tables, 101, 40, NULL, &old));
    CHECK(old.handler == OLD);
}

/* storing ignore would discard what is pending */
static void unknown_flags(void)
{
    const struct rrezhbuta_action stored = {HANDLER, RREZHBUTA_SA_SIGINFO, 2048};
    struct rrezhbuta_action unknown = {RREZHBUTA_SIG_IGN, 0, 0}, old = {OLD, OLD, OLD};
    start();
    DONE(rrezhbuta_sigaction(&tables, 100, 40, &stored, NULL));
    sigqueue_sent(0, 40, 7);
    for (uint64_t flag = 1; flag != 0; flag *= 2) {
        if ((flag & RREZHBUTA_KNOWN_FLAGS) != 0)
            continue;
        unknown.flags = flag;
        REFUSED(RREZHBUTA_EINVAL, rrezhbuta_sigaction(&tables, 100, 40, &unknown, &old));
        REFUSED(RREZHBUTA_EINVAL, rrezhbuta_sigaction(&tables, 101, 40, &unknown, &old));
        unknown.flags |= RREZHBUTA_KNOWN_FLAGS;
        REFUSED(RREZHBUTA_EINVAL, rrezhbuta_sigaction(&tables, 100, 40, &unknown, &old));
    }
    CHECK(old.handler == OLD);
    DONE(rrezhbuta_sigaction(&tables, 100, 40, NULL, &old));
    CHECK(memcmp(&old, &stored, sizeof old) == 0);
}

static void an_enquiry_looks_at_no_flags(void)
{
    const uint32_t narrow[6] = {100, 40, 0};
    const uint64_t wide[3] = {ALL_ONES, ALL_ONES, ALL_ONES};
    const struct rrezhbuta_answer wanted = {RREZHBUTA_ANSWER_OLD_ACTION, {HANDLER, RREZHBUTA_SA_SIGINFO, 2048}};
    struct rrezhbuta_answer answer;
    start();
    handle(40, RREZHBUTA_SA_SIGINFO, 2048);
    before = store;
    DONE(rrezhbuta_serve(&tables, &answer, RREZHBUTA_CALL_SIGACTION, narrow, wide));
    CHECK(memcmp(&answer, &wanted, sizeof answer) == 0 && memcmp(&store, &before, sizeof store) == 0);
}

static void ignoring_discards(void)
{
    const struct rrezhbuta_action ignore = {RREZHBUTA_SIG_IGN, 0, 0};
    start();
    CHECK(kill_sent(0, 2) == RREZHBUTA_ANSWER_MARKED);
    DONE(rrezhbuta_sigaction(&tables, 100, 2, &ignore, NULL));
    CHECK(store.processes[1].marks == 0);
    CHECK(sigqueue_sent(0, 2, 7) == RREZHBUTA_ANSWER_DROPPED);
}

static void masks(void)
{
    const uint64_t all = ALL_ONES, two = 2, six = 6;
    uint64_t old = OLD;
    start();
    DONE(rrezhbuta_sigmask(&tables, 200, RREZHBUTA_SIG_BLOCK, &all, &old));
    CHECK(old == 0 && mask_now(200) == UINT64_C(18446744073709289215));
    DONE(rrezhbuta_sigmask(&tables, 200, RREZHBUTA_SIG_SETMASK, &six, NULL));
    DONE(rrezhbuta_sigmask(&tables, 200, RREZHBUTA_SIG_UNBLOCK, &two, &old));
    CHECK(old == 6 && mask_now(200) == 4);
    old = OLD;
    REFUSED(RREZHBUTA_EINVAL, rrezhbuta_sigmask(&tables, 200, 7, &six, &old));
    REFUSED(RREZHBUTA_ESRCH, rrezhbuta_sigmask(&tables, 999, 7, NULL, &old));
    CHECK(old == OLD);
}

static void pending(void)
{
    const uint64_t set = BIT(2) | BIT(40);
    uint64_t found = OLD;
    start();
    REFUSED(RREZHBUTA_ESRCH, rrezhbuta_sigpending(&tables, 999, &found));
    CHECK(found == OLD);
    DONE(rrezhbuta_sigmask(&tables, 200, RREZHBUTA_SIG_BLOCK, &set, NULL));
    kill_sent(0, 2);
    kill_sent(0, 10);
    sigqueue_sent(200, 40, 7);
    DONE(rrezhbuta_sigpending(&tables, 200, &found));
    CHECK(found == set);
}

/* ---- Looking */

static void looks(void)
{
    start();
    CHECK(rrezhbuta_look_part(&tables, 200) == NULL);
    kill_sent(0, 2);
    CHECK(rrezhbuta_look_part(&tables, 200) == NULL);
    CHECK(rrezhbuta_look_part(&tables, 999) == NULL);
    DONE(rrezhbuta_end_process(&tables, 100));
    DONE(add(100, 1000, 200, 0));
    sigqueue_sent(0, 41, 1);
    sigqueue_sent(0, 40, 2);
    CHECK(rrezhbuta_look_part(&tables, 200) == &store.process_buffer[1]);
    sigqueue_sent(200, 41, 3);
    sigqueue_sent(200, 40, 4);
    CHECK(rrezhbuta_look_part(&tables, 200) == &store.thread_buffer[1]);
    sigqueue_sent(200, 34, 5);
    CHECK(rrezhbuta_look_part(&tables, 200) == &store.thread_buffer[2]);
    CHECK(rrezhbuta_look_part(&tables, 200)->value == 5);
    store.processes[1].stopped = 2;
    CHECK(rrezhbuta_look_part(&tables, 200) == NULL);
}

static void what_is_next(void)
{
    struct rrezhbuta_next next;
    const struct rrezhbuta_siginfo mark = {100, 200, 2, 0, 0, 0, 0}, record = {100, 0, 1, -1, 1, 0, 7};
    start();
    DONE(rrezhbuta_look(&tables, 200, &next));
    CHECK(next.answer == RREZHBUTA_ANSWER_NEXT_NOTHING && next.info.process == 0 && next.info.signal == 0);
    kill_sent(200, 2);
    DONE(rrezhbuta_look(&tables, 200, &next));
    CHECK(next.answer == RREZHBUTA_ANSWER_NEXT_MARK && memcmp(&next.info, &mark, sizeof mark) == 0);
    sigqueue_sent(0, 1, 7);
    DONE(rrezhbuta_look(&tables, 200, &next));
    CHECK(next.answer == RREZHBUTA_ANSWER_NEXT_RECORD && memcmp(&next.info, &record, sizeof record) == 0);
    next.answer = OLD;
    REFUSED(RREZHBUTA_ESRCH, rrezhbuta_look(&tables, 999, &next));
    CHECK(next.answer == OLD);
}

static void who_can_take(void)
{
    const uint64_t set = BIT(2);
    uint32_t thread = 9;
    start();
    REFUSED(RREZHBUTA_ESRCH, rrezhbuta_who(&tables, 999, &thread));
    CHECK(thread == 9);
    DONE(rrezhbuta_who(&tables, 100, &thread));
    CHECK(thread == 0);
    DONE(rrezhbuta_add_thread(&tables, 200, 201));
    kill_sent(0, 2);
    DONE(rrezhbuta_who(&tables, 100, &thread));
    CHECK(thread == 200);
    DONE(rrezhbuta_sigmask(&tables, 200, RREZHBUTA_SIG_BLOCK, &set, NULL));
    DONE(rrezhbuta_who(&tables, 100, &thread));
    CHECK(thread == 201);
}

/* ---- Taking */

static void a_handler_takes(void)
{
    const struct rrezhbuta_siginfo mark = {100, 0, 10, 0, 0, 0, 0}, record = {100, 200, 40, -1, 1, 0, 7};
    uint64_t old = OLD;
    start();
    handle(10, RREZHBUTA_SA_SIGINFO, 2048);
    handle(40, RREZHBUTA_SA_NODEFER | RREZHBUTA_SA_RESETHAND, 2048);
    kill_sent(0, 10);
    sigqueue_sent(200, 40, 7);
    struct rrezhbuta_taken taken = take(200);
    CHECK(taken.answer == RREZHBUTA_ANSWER_HANDLER && taken.handler == HANDLER && taken.signal == 10);
    CHECK(taken.flags == RREZHBUTA_SA_SIGINFO && taken.saved == 0 && mask_now(200) == 2560);
    CHECK(memcmp(&taken.info, &mark, sizeof mark) == 0);
    DONE(rrezhbuta_sigreturn(&tables, 200, BIT(1) | UNMASKABLE, &old));
    CHECK(old == 2560);
    taken = take(200);
    CHECK(taken.flags == (RREZHBUTA_SA_NODEFER | RREZHBUTA_SA_RESETHAND) && taken.saved == BIT(1));
    CHECK(mask_now(200) == (BIT(1) | 2048) && memcmp(&taken.info, &record, sizeof record) == 0);
    CHECK(store.processes[1].actions[39].handler == RREZHBUTA_SIG_DFL);
    REFUSED(RREZHBUTA_ESRCH, rrezhbuta_sigreturn(&tables, 999, 0, &old));
    CHECK(old == 2560);
}

static void the_order_of_takes(void)
{
    start();
    for (uint32_t signal = 34; signal <= 40; signal++)
        handle(signal, 0, 0);
    for (uint64_t value = 1; value <= 3; value++)
        sigqueue_sent(0, 40, value);
    sigqueue_sent(200, 40, 4);
    sigqueue_sent(200, 35, 5);
    sigqueue_sent(0, 34, 6);
    const uint64_t wanted[] = {6, 5, 4, 1, 2, 3};
    for (size_t n = 0; n < COUNT(wanted); n++)
        CHECK(value_taken(200) == wanted[n]);
    CHECK(take(200).answer == RREZHBUTA_ANSWER_NOTHING);
}

static void default_takes(void)
{
    start();
    before = store;
    struct rrezhbuta_taken taken = take(200);
    CHECK(taken.answer == RREZHBUTA_ANSWER_NOTHING && taken.signal == 0 && taken.handler == 0 &&
          taken.info.signal == 0);
    CHECK(memcmp(&store, &before, sizeof store) == 0);
    kill_sent(0, RREZHBUTA_SIGCONT);
    taken = take(200);
    CHECK(taken.answer == RREZHBUTA_ANSWER_NO_ACTION && taken.signal == RREZHBUTA_SIGCONT);
    kill_sent(0, RREZHBUTA_SIGTTIN);
    taken = take(200);
    CHECK(taken.answer == RREZHBUTA_ANSWER_STOP && taken.signal == RREZHBUTA_SIGTTIN && taken.handler == 0);
    CHECK(store.processes[1].stopped == 1);
    kill_sent(0, RREZHBUTA_SIGCONT);
    kill_sent(0, 15);
    taken = take(200);
    CHECK(taken.answer == RREZHBUTA_ANSWER_END && taken.signal == 15 && store.processes[1].id == 0);
    taken.answer = OLD;
    REFUSED(RREZHBUTA_ESRCH, rrezhbuta_take(&tables, 200, &taken));
    CHECK(taken.answer == OLD);
}

/* ---- The boundary itself */

/* a call by its number with that room for the answer, of whose words none may change unless it is accepted */
static uint64_t numbered(uint32_t number, size_t room)
{
    uint64_t answer[RREZHBUTA_ANSWER_WORDS + 1];
    for (size_t n = 0; n <= RREZHBUTA_ANSWER_WORDS; n++)
        answer[n] = OLD;
    uint64_t refusal =
        rrezhbuta_call((uint64_t *)store.processes, RREZHBUTA_PROCESS_TABLE, (uint8_t *)store.thread_buffer,
                       RREZHBUTA_BUFFER_BYTES, (uint8_t *)store.process_buffer, RREZHBUTA_BUFFER_BYTES, answer, room,
                       store.threads, RREZHBUTA_THREAD_PLACES, number, 100, 40, 0, 0, 0, 0, 0, 0, 0);
    CHECK(answer[RREZHBUTA_ANSWER_WORDS] == OLD);
    for (size_t n = 0; n < RREZHBUTA_ANSWER_WORDS; n++)
        CHECK(refusal == 0 ? answer[n] != OLD : answer[n] == OLD);
    return refusal;
}

/* the number of an answer that has no value but the first, which is the one wanted */
static uint64_t answered(uint32_t number, uint32_t a, uint32_t b, uint64_t value)
{
    struct rrezhbuta_answer answer;
    memset(&answer, 0xA5, sizeof answer);
    DONE(rrezhbuta_serve_ids(&tables, &answer, number, a, b));
    CHECK(answer.values[0] == value);
    for (size_t n = 1; n < RREZHBUTA_ANSWER_WORDS - 1; n++)
        CHECK(answer.values[n] == 0);
    return answer.number;
}

static void the_numbers_of_the_answers(void)
{
    start();
    CHECK(answered(RREZHBUTA_CALL_ADD_THREAD, 200, 201, 0) == RREZHBUTA_ANSWER_DONE);
    CHECK(answered(RREZHBUTA_CALL_WHO, 100, 0, 0) == RREZHBUTA_ANSWER_NONE_CAN);
    kill_sent(0, 2);
    CHECK(answered(RREZHBUTA_CALL_WHO, 100, 0, 200) == RREZHBUTA_ANSWER_CAN_TAKE);
    handle(10, 0, 0);
    CHECK(answered(RREZHBUTA_CALL_SIGACTION, 100, 10, HANDLER) == RREZHBUTA_ANSWER_OLD_ACTION);
    DONE(rrezhbuta_sigreturn(&tables, 200, BIT(2), NULL));
    CHECK(answered(RREZHBUTA_CALL_SIGPENDING, 200, 0, BIT(2)) == RREZHBUTA_ANSWER_PENDING_SET);
    CHECK(answered(RREZHBUTA_CALL_SIGMASK, 200, 0, BIT(2)) == RREZHBUTA_ANSWER_OLD_MASK);
    CHECK(answered(RREZHBUTA_CALL_SIGRETURN, 200, 0, BIT(2)) == RREZHBUTA_ANSWER_OLD_MASK);
    CHECK(answered(RREZHBUTA_CALL_END_THREAD, 201, 0, 0) == RREZHBUTA_ANSWER_DONE);
    CHECK(answered(RREZHBUTA_CALL_END_PROCESS, 100, 0, 0) == RREZHBUTA_ANSWER_DONE);
    CHECK(answered(RREZHBUTA_CALL_CLEAR, 0, 0, 0) == RREZHBUTA_ANSWER_DONE);
}

static void the_room_for_the_answer(void)
{
    start();
    DONE(numbered(RREZHBUTA_CALL_SIGACTION, RREZHBUTA_ANSWER_WORDS));
    for (uint32_t number = RREZHBUTA_CALL_CLEAR; number <= RREZHBUTA_CALL_SIGRETURN; number++) {
        REFUSED(RREZHBUTA_EINVAL, (int)numbered(number, RREZHBUTA_ANSWER_WORDS - 1));
        REFUSED(RREZHBUTA_EINVAL, (int)numbered(number, 0));
    }
}

static void unknown_calls(void)
{
    start();
    REFUSED(RREZHBUTA_EINVAL, (int)numbered(0, RREZHBUTA_ANSWER_WORDS));
    REFUSED(RREZHBUTA_EINVAL, (int)numbered(RREZHBUTA_CALL_SIGRETURN + 1, RREZHBUTA_ANSWER_WORDS));
    store.processes[1].stopped = 2;
    REFUSED(RREZHBUTA_EFAULT, (int)numbered(0, RREZHBUTA_ANSWER_WORDS));
    REFUSED(RREZHBUTA_EFAULT, (int)numbered(RREZHBUTA_CALL_SIGRETURN + 1, 0));
    REFUSED(RREZHBUTA_EFAULT, (int)numbered(RREZHBUTA_CALL_SIGACTION, 0));
}

/* every function on the tables as they are lent */
static void all_refused(void)
{
    struct rrezhbuta_next next;
    struct rrezhbuta_taken taken;
    uint64_t set;
    uint32_t thread;
    REFUSED(RREZHBUTA_EFAULT, add(300, 1, 400, 0));
    REFUSED(RREZHBUTA_EFAULT, rrezhbuta_add_thread(&tables, 200, 201));
    REFUSED(RREZHBUTA_EFAULT, rrezhbuta_end_process(&tables, 100));
    REFUSED(RREZHBUTA_EFAULT, rrezhbuta_end_thread(&tables, 200));
    REFUSED(RREZHBUTA_EFAULT, rrezhbuta_kill(&tables, 1, 100, 0, RREZHBUTA_SIGKILL, NULL));
    REFUSED(RREZHBUTA_EFAULT, rrezhbuta_sigqueue(&tables, 1, 100, 0, 40, 7, NULL));
    REFUSED(RREZHBUTA_EFAULT, rrezhbuta_sigaction(&tables, 100, 40, NULL, NULL));
    REFUSED(RREZHBUTA_EFAULT, rrezhbuta_sigmask(&tables, 200, 0, NULL, NULL));
    REFUSED(RREZHBUTA_EFAULT, rrezhbuta_sigpending(&tables, 200, &set));
    REFUSED(RREZHBUTA_EFAULT, rrezhbuta_look(&tables, 200, &next));
    REFUSED(RREZHBUTA_EFAULT, rrezhbuta_who(&tables, 100, &thread));
    REFUSED(RREZHBUTA_EFAULT, rrezhbuta_take(&tables, 200, &taken));
    REFUSED(RREZHBUTA_EFAULT, rrezhbuta_sigreturn(&tables, 200, 0, NULL));
    CHECK(rrezhbuta_look_part(&tables, 200) == NULL);
}

/* with that length in place of the right one every function refuses, clearing too */
static void refused_at(size_t *length, size_t wrong)
{
    const size_t right = *length;
    *length = wrong;
    REFUSED(RREZHBUTA_EFAULT, rrezhbuta_clear(&tables));
    all_refused();
    *length = right;
}

static void wrong_lengths(void)
{
    start();
    sigqueue_sent(0, 40, 7);
    CHECK(rrezhbuta_look_part(&tables, 200) != NULL);
    size_t *lengths[] = {&tables.process_places, &tables.thread_places, &tables.thread_records,
                         &tables.process_records};
    for (size_t n = 0; n < COUNT(lengths); n++) {
        refused_at(lengths[n], *lengths[n] - 1);
        /* too long by each power of two: 2^59 records more are 2^64 bytes more, which a size_t does not show */
        for (size_t more = 1; more != 0; more *= 2)
            refused_at(lengths[n], *lengths[n] + more);
    }
    DONE(rrezhbuta_clear(&tables));
}

static void lengths_that_no_size_holds(void)
{
    const size_t sizes[] = {RREZHBUTA_PROCESS_WORDS, RREZHBUTA_RECORD_BYTES};
    for (size_t n = 0; n < COUNT(sizes); n++) {
        const size_t most = SIZE_MAX / sizes[n];
        CHECK(rrezhbuta_length(most, sizes[n]) == most * sizes[n]);
        CHECK(rrezhbuta_length(most + 1, sizes[n]) == 0);
        CHECK(rrezhbuta_length(SIZE_MAX, sizes[n]) == 0);
    }
}

static void an_unsound_store(void)
{
    start();
    store.process_buffer[3].value = 1;
    all_refused();
    DONE(rrezhbuta_clear(&tables));
    CHECK(store.process_buffer[3].value == 0);
}

int main(void)
{
    adding();
    each_user_id_has_its_place();
    ending();
    the_tables_are_as_long_as_the_limits_say();
    the_buffers_are_as_long_as_the_limits_say();
    plain_sends();
    queued_sends();
    refused_sends();
    a_full_queue();
    kill_lands_on_a_full_queue();
    actions();
    unknown_flags();
    an_enquiry_looks_at_no_flags();
    ignoring_discards();
    masks();
    pending();
    looks();
    what_is_next();
    who_can_take();
    a_handler_takes();
    the_order_of_takes();
    default_takes();
    the_numbers_of_the_answers();
    the_room_for_the_answer();
    unknown_calls();
    wrong_lengths();
    lengths_that_no_size_holds();
    an_unsound_store();
    printf("host/c/test.c: %d checks\n", checks);
    return 0;
}
