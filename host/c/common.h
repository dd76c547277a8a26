/* What the tests in this folder share: a check that ends the program, and two processes to begin with. */
#ifndef RREZHBUTA_COMMON_H
#define RREZHBUTA_COMMON_H

#include <stdio.h>
#include <stdlib.h>

#include "rrezhbuta.h"

#define BIT(signal) (UINT64_C(1) << ((signal)-1))
#define COUNT(array) (sizeof(array) / sizeof *(array))
#define HANDLER 5000

static int checks;

static inline void check(int holds, const char *said, const char *file, int line)
{
    checks++;
    if (holds)
        return;
    fprintf(stderr, "%s:%d: not so: %s\n", file, line, said);
    exit(1);
}

#define CHECK(condition) check((condition), #condition, __FILE__, __LINE__)
#define DONE(call) CHECK((call) == 0)

/* a process of one user, in session 7 */
static inline int add_user(const struct rrezhbuta_tables *tables, uint32_t id, uint32_t user, uint32_t thread,
                           uint64_t mask)
{
    struct rrezhbuta_new_process process = {id, user, user, user, 7, thread, mask};
    return rrezhbuta_add_process(tables, &process);
}

/* process 1 of user 0 with thread 2, and process 100 of user 1000 with thread 200 */
static inline void two(struct rrezhbuta_tables *tables)
{
    DONE(rrezhbuta_clear(tables));
    DONE(add_user(tables, 1, 0, 2, 0));
    DONE(add_user(tables, 100, 1000, 200, 0));
}

#endif
