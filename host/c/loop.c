/* The loop of a host: it sends, asks who can take, takes, and does what the answer says. The tables are lent to one
   caller at a time, so a host with several threads puts a lock around the calls. */
#include <inttypes.h>
#include <stdio.h>
#include "rrezhbuta.h"

enum { PROCESS = 100, THREAD = 200, TERM = 15, FACET = 40, HANDLER = 5000 };

/* The threads of the process take signals until none can, or until it is gone. */
static int deliver(const struct rrezhbuta_tables *tables)
{
    struct rrezhbuta_taken took;
    uint64_t blocked;
    uint32_t thread;
    int refusal = rrezhbuta_who(tables, PROCESS, &thread);
    for (; !refusal && thread; refusal = rrezhbuta_who(tables, PROCESS, &thread)) {
        if ((refusal = rrezhbuta_take(tables, thread, &took))) return refusal;
        switch (took.answer) {
        case RREZHBUTA_ANSWER_HANDLER: /* here the host runs it on that thread, with the mask that the take has set */
            printf("thread %u runs handler %" PRIu64 ": signal %u, value %" PRIu64 "\n", thread, took.handler,
                   took.signal, took.info.value);
            if ((refusal = rrezhbuta_sigreturn(tables, thread, took.saved, &blocked))) return refusal;
            printf("thread %u returns; meanwhile it blocked %016" PRIx64 "\n", thread, blocked);
            break;
        case RREZHBUTA_ANSWER_STOP: /* its threads neither run nor take until a CONT is sent */
            printf("signal %u has stopped process %d\n", took.signal, PROCESS);
            break;
        case RREZHBUTA_ANSWER_NO_ACTION: /* CONT: the process has run since it was sent, so there is nothing to do */
            printf("signal %u asks for no action\n", took.signal);
            break;
        case RREZHBUTA_ANSWER_END: /* the tables no longer have it; the host frees what it keeps for it */
            printf("signal %u has ended process %d\n", took.signal, PROCESS);
            return 0;
        default: /* NOTHING: not after `who`, but for a host that takes without asking; the thread runs on */
            printf("thread %u has nothing to take\n", thread);
        }
    }
    return refusal;
}

int main(void)
{
    static struct rrezhbuta_store store;
    const struct rrezhbuta_tables tables = rrezhbuta_lend(&store);
    const struct rrezhbuta_new_process process = {.id = PROCESS, .thread = THREAD};
    const struct rrezhbuta_action action = {.handler = HANDLER};
    const uint32_t signals[] = {RREZHBUTA_SIGTSTP, RREZHBUTA_SIGCONT, TERM};
    int refusal = rrezhbuta_add_process(&tables, &process);
    if (!refusal) refusal = rrezhbuta_sigaction(&tables, PROCESS, FACET, &action, NULL);
    if (!refusal) refusal = rrezhbuta_sigqueue(&tables, PROCESS, PROCESS, 0, FACET, 7, NULL);
    if (!refusal) refusal = deliver(&tables);
    /* a KILL or STOP would answer ACTED: it is carried out by the send, and nobody takes it */
    for (int n = 0; !refusal && n < 3; n++) {
        refusal = rrezhbuta_kill(&tables, PROCESS, PROCESS, 0, signals[n], NULL);
        if (!refusal) refusal = deliver(&tables);
    }
    return refusal;
}
