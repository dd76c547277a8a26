#include <inttypes.h>
#include <stdio.h>
#include "rrezhbuta.h"

int main(void)
{
    static struct rrezhbuta_store store;
    struct rrezhbuta_tables tables = rrezhbuta_lend(&store);
    struct rrezhbuta_new_process process = {.id = 100, .thread = 200};
    struct rrezhbuta_action action = {.handler = 5000};
    struct rrezhbuta_taken took;
    int refusal = rrezhbuta_clear(&tables);
    if (!refusal) refusal = rrezhbuta_add_process(&tables, &process);
    if (!refusal) refusal = rrezhbuta_sigaction(&tables, 100, 40, &action, NULL);
    if (!refusal) refusal = rrezhbuta_sigqueue(&tables, 100, 100, 0, 40, 7, NULL);
    if (!refusal) refusal = rrezhbuta_take(&tables, 200, &took);
    if (refusal) return refusal;
    printf("handler %" PRIu64 ", signal %u, value %" PRIu64 "\n", took.handler, took.signal, took.info.value);
    return 0;
}
