/*
 * Rrezhbuta: a POSIX signal layer over tables that the host lends.
 *
 * Link with target/staticlib/librrezhbuta.a, which `./staticlib rrezhbuta` writes. What each call does, and when it is
 * refused, is in docs/CALLS.md; host/c/loop.c is the loop that a host runs.
 *
 * Every call checks the whole of the four tables, then does its work or refuses it. It returns 0, or an errno and has
 * then written nothing, neither to a table nor through a pointer that it was given for its result. Where it is refused,
 * or only asks, the tables may lie in read-only pages. The layer keeps no state and no pointer between calls. It takes
 * no lock: a host with several threads makes one call at a time on the same tables. No two of the lent tables may
 * overlap.
 */
#ifndef RREZHBUTA_H
#define RREZHBUTA_H

#include <stddef.h>
#include <stdint.h>

#if defined(__BYTE_ORDER__) && __BYTE_ORDER__ != __ORDER_LITTLE_ENDIAN__
#error "records are little-endian"
#endif

#ifdef __cplusplus
#define RREZHBUTA_ASSERT(condition) static_assert(condition, #condition)
extern "C" {
#else
#define RREZHBUTA_ASSERT(condition) _Static_assert(condition, #condition)
#endif

/* ---- The numbers of crates/limits. Those that count, and those that say where a field is, are plain; the others have
   the width of what they are compared with. */

/* Places of the process table and of the thread table; records of each buffer. */
#define RREZHBUTA_PROCESS_PLACES 16
#define RREZHBUTA_THREAD_PLACES 64
#define RREZHBUTA_BUFFER_RECORDS 512

/* The records that one process may have pending, its threads' queues counted in. */
#define RREZHBUTA_RECORD_LIMIT 32

/* The largest process or thread id; the largest user id and session id. */
#define RREZHBUTA_LARGEST_ID UINT32_C(2147483647)
#define RREZHBUTA_LARGEST_USER UINT32_C(4294967295)

/* Signals are 1 to SIGNALS; those over LAST_STANDARD are realtime. In a set, signal s is bit s-1. */
#define RREZHBUTA_SIGNALS UINT32_C(64)
#define RREZHBUTA_LAST_STANDARD UINT32_C(31)
#define RREZHBUTA_SIGILL UINT32_C(4)
#define RREZHBUTA_SIGTRAP UINT32_C(5)
#define RREZHBUTA_SIGKILL UINT32_C(9)
#define RREZHBUTA_SIGCHLD UINT32_C(17)
#define RREZHBUTA_SIGCONT UINT32_C(18)
#define RREZHBUTA_SIGSTOP UINT32_C(19)
#define RREZHBUTA_SIGTSTP UINT32_C(20)
#define RREZHBUTA_SIGTTIN UINT32_C(21)
#define RREZHBUTA_SIGTTOU UINT32_C(22)
#define RREZHBUTA_SIGURG UINT32_C(23)
#define RREZHBUTA_SIGWINCH UINT32_C(28)

/* The two handler numbers that are no handler, and the flags of an action; one with any other bit is refused. */
#define RREZHBUTA_SIG_DFL UINT64_C(0)
#define RREZHBUTA_SIG_IGN UINT64_C(1)
#define RREZHBUTA_SA_SIGINFO UINT64_C(0x4)
#define RREZHBUTA_SA_RESTART UINT64_C(0x10000000)
#define RREZHBUTA_SA_NODEFER UINT64_C(0x40000000)
#define RREZHBUTA_SA_RESETHAND UINT64_C(0x80000000)
#define RREZHBUTA_KNOWN_FLAGS                                                                                          \
    (RREZHBUTA_SA_SIGINFO + RREZHBUTA_SA_RESTART + RREZHBUTA_SA_NODEFER + RREZHBUTA_SA_RESETHAND)

/* The ways to change a mask: the set is added, its members are removed, it replaces the mask. */
#define RREZHBUTA_SIG_BLOCK UINT32_C(0)
#define RREZHBUTA_SIG_UNBLOCK UINT32_C(1)
#define RREZHBUTA_SIG_SETMASK UINT32_C(2)

/* The code of a queued record, -1 as the 32 bits of it. */
#define RREZHBUTA_SI_QUEUE UINT32_C(0xFFFFFFFF)

/* The refusals; the numbers are those of Linux on x86-64. */
#define RREZHBUTA_EPERM UINT32_C(1)
#define RREZHBUTA_ESRCH UINT32_C(3)
#define RREZHBUTA_EAGAIN UINT32_C(11)
#define RREZHBUTA_EFAULT UINT32_C(14)
#define RREZHBUTA_EEXIST UINT32_C(17)
#define RREZHBUTA_EINVAL UINT32_C(22)

/* Words of a place of the process table, of an action and of a place of the thread table. The structs below have the
   same layout. */
#define RREZHBUTA_PROCESS_ID 0
#define RREZHBUTA_PROCESS_REAL 1
#define RREZHBUTA_PROCESS_EFFECTIVE 2
#define RREZHBUTA_PROCESS_SAVED 3
#define RREZHBUTA_PROCESS_SESSION 4
#define RREZHBUTA_PROCESS_STOPPED 5
#define RREZHBUTA_PROCESS_MARKS 6
#define RREZHBUTA_HEAD_WORDS 7
#define RREZHBUTA_ACTION_HANDLER 0
#define RREZHBUTA_ACTION_FLAGS 1
#define RREZHBUTA_ACTION_MASK 2
#define RREZHBUTA_ACTION_WORDS 3
#define RREZHBUTA_THREAD_ID 0
#define RREZHBUTA_THREAD_PROCESS 1
#define RREZHBUTA_THREAD_MASK 2
#define RREZHBUTA_THREAD_MARKS 3
#define RREZHBUTA_THREAD_WORDS 4
#define RREZHBUTA_PROCESS_WORDS (RREZHBUTA_HEAD_WORDS + RREZHBUTA_SIGNALS * RREZHBUTA_ACTION_WORDS)
#define RREZHBUTA_PROCESS_TABLE (RREZHBUTA_PROCESS_PLACES * RREZHBUTA_PROCESS_WORDS)
#define RREZHBUTA_THREAD_TABLE (RREZHBUTA_THREAD_PLACES * RREZHBUTA_THREAD_WORDS)

/* Bytes of a record. */
#define RREZHBUTA_RECORD_PROCESS 0
#define RREZHBUTA_RECORD_THREAD 4
#define RREZHBUTA_RECORD_SIGNAL 8
#define RREZHBUTA_RECORD_CODE 12
#define RREZHBUTA_RECORD_SENDER 16
#define RREZHBUTA_RECORD_UID 20
#define RREZHBUTA_RECORD_VALUE 24
#define RREZHBUTA_RECORD_BYTES 32
#define RREZHBUTA_BUFFER_BYTES (RREZHBUTA_BUFFER_RECORDS * RREZHBUTA_RECORD_BYTES)

/* The calls. */
#define RREZHBUTA_CALL_CLEAR UINT32_C(1)
#define RREZHBUTA_CALL_ADD_PROCESS UINT32_C(2)
#define RREZHBUTA_CALL_ADD_THREAD UINT32_C(3)
#define RREZHBUTA_CALL_END_PROCESS UINT32_C(4)
#define RREZHBUTA_CALL_END_THREAD UINT32_C(5)
#define RREZHBUTA_CALL_KILL UINT32_C(6)
#define RREZHBUTA_CALL_SIGQUEUE UINT32_C(7)
#define RREZHBUTA_CALL_SIGACTION UINT32_C(8)
#define RREZHBUTA_CALL_SIGMASK UINT32_C(9)
#define RREZHBUTA_CALL_SIGPENDING UINT32_C(10)
#define RREZHBUTA_CALL_LOOK UINT32_C(11)
#define RREZHBUTA_CALL_WHO UINT32_C(12)
#define RREZHBUTA_CALL_TAKE UINT32_C(13)
#define RREZHBUTA_CALL_SIGRETURN UINT32_C(14)

/* The answers: the first of the words that a call writes. */
#define RREZHBUTA_ANSWER_DONE UINT64_C(1)
#define RREZHBUTA_ANSWER_TESTED UINT64_C(2)
#define RREZHBUTA_ANSWER_ACTED UINT64_C(3)
#define RREZHBUTA_ANSWER_DROPPED UINT64_C(4)
#define RREZHBUTA_ANSWER_ABSORBED UINT64_C(5)
#define RREZHBUTA_ANSWER_MARKED UINT64_C(6)
#define RREZHBUTA_ANSWER_KEPT UINT64_C(7)
#define RREZHBUTA_ANSWER_OLD_ACTION UINT64_C(8)
#define RREZHBUTA_ANSWER_OLD_MASK UINT64_C(9)
#define RREZHBUTA_ANSWER_PENDING_SET UINT64_C(10)
#define RREZHBUTA_ANSWER_NEXT_NOTHING UINT64_C(11)
#define RREZHBUTA_ANSWER_NEXT_MARK UINT64_C(12)
#define RREZHBUTA_ANSWER_NEXT_RECORD UINT64_C(13)
#define RREZHBUTA_ANSWER_CAN_TAKE UINT64_C(14)
#define RREZHBUTA_ANSWER_NONE_CAN UINT64_C(15)
#define RREZHBUTA_ANSWER_NOTHING UINT64_C(16)
#define RREZHBUTA_ANSWER_HANDLER UINT64_C(17)
#define RREZHBUTA_ANSWER_END UINT64_C(18)
#define RREZHBUTA_ANSWER_STOP UINT64_C(19)
#define RREZHBUTA_ANSWER_NO_ACTION UINT64_C(20)
#define RREZHBUTA_ANSWER_WORDS 12

/* ---- What a call needs of the thread that makes it: so many bytes of stack below the frame of its caller, arguments
   and return address counted in. This is no number of crates/limits; host/c/stack.c measures every call against it. */
#define RREZHBUTA_STACK 8192

/* ---- The tables */

/* What a process does on a signal. */
struct rrezhbuta_action {
    uint64_t handler; /* SIG_DFL, SIG_IGN, else a handler */
    uint64_t flags;
    uint64_t mask; /* what is blocked while the handler runs */
};

/* A place of the process table; all zero where it is free. */
struct rrezhbuta_process {
    uint64_t id;
    uint64_t real, effective, saved; /* user ids */
    uint64_t session;
    uint64_t stopped;                                   /* 0 or 1 */
    uint64_t marks;                                     /* what is pending for it without a value */
    struct rrezhbuta_action actions[RREZHBUTA_SIGNALS]; /* that of signal s is at s-1 */
};

/* A place of the thread table; all zero where it is free. */
struct rrezhbuta_thread {
    uint64_t id;
    uint64_t process; /* the id of its process */
    uint64_t mask;
    uint64_t marks; /* what is pending for it without a value */
};

/* A record: a pending signal with what its sender said of it. Used ones come first in a buffer, oldest first; the rest
   is zero. */
struct rrezhbuta_siginfo {
    uint32_t process; /* whom it is pending for */
    uint32_t thread;  /* 0 in the process buffer */
    uint32_t signal;
    int32_t code; /* -1, queued; 0 where a take answers a mark */
    uint32_t sender;
    uint32_t uid; /* the sender's real user id */
    uint64_t value;
};

/* The lent tables. A kernel lends its own arrays; tables of other lengths than above are refused with EFAULT. */
struct rrezhbuta_tables {
    struct rrezhbuta_process *processes;
    size_t process_places;
    struct rrezhbuta_thread *threads;
    size_t thread_places;
    struct rrezhbuta_siginfo *thread_buffer; /* records aimed at a thread */
    size_t thread_records;
    struct rrezhbuta_siginfo *process_buffer; /* records aimed at a process */
    size_t process_records;
};

/* The four tables in one piece, for a host that has none yet. All zero, as static storage is, they are cleared. */
struct rrezhbuta_store {
    struct rrezhbuta_process processes[RREZHBUTA_PROCESS_PLACES];
    struct rrezhbuta_thread threads[RREZHBUTA_THREAD_PLACES];
    struct rrezhbuta_siginfo thread_buffer[RREZHBUTA_BUFFER_RECORDS];
    struct rrezhbuta_siginfo process_buffer[RREZHBUTA_BUFFER_RECORDS];
};

/* ---- What is asked and answered */

/* The words of an answer, zeros behind its values. */
struct rrezhbuta_answer {
    uint64_t number; /* RREZHBUTA_ANSWER_... */
    uint64_t values[RREZHBUTA_ANSWER_WORDS - 1];
};

/* A process to be added, with its first thread and that thread's mask. */
struct rrezhbuta_new_process {
    uint32_t id;
    uint32_t real, effective, saved; /* user ids */
    uint32_t session;
    uint32_t thread;
    uint64_t mask;
};

/* What a thread would take next. */
struct rrezhbuta_next {
    uint64_t answer;               /* NEXT_NOTHING, NEXT_MARK or NEXT_RECORD */
    struct rrezhbuta_siginfo info; /* of a mark process, thread and signal alone; else zero */
};

/* What a take took. */
struct rrezhbuta_taken {
    uint64_t answer;  /* NOTHING, HANDLER, END, STOP or NO_ACTION */
    uint32_t signal;  /* 0 for NOTHING */
    uint64_t handler; /* this and the rest for HANDLER alone */
    uint64_t flags;   /* as they were before RESETHAND */
    uint64_t saved;   /* the mask before, for sigreturn */
    struct rrezhbuta_siginfo info;
};

/* ---- The layouts are those that the numbers say */

#define RREZHBUTA_WORD(type, field, word) RREZHBUTA_ASSERT(offsetof(struct type, field) == sizeof(uint64_t) * (word))
#define RREZHBUTA_BYTE(field, byte) RREZHBUTA_ASSERT(offsetof(struct rrezhbuta_siginfo, field) == (byte))

RREZHBUTA_WORD(rrezhbuta_action, handler, RREZHBUTA_ACTION_HANDLER);
RREZHBUTA_WORD(rrezhbuta_action, flags, RREZHBUTA_ACTION_FLAGS);
RREZHBUTA_WORD(rrezhbuta_action, mask, RREZHBUTA_ACTION_MASK);
RREZHBUTA_ASSERT(sizeof(struct rrezhbuta_action) == sizeof(uint64_t) * RREZHBUTA_ACTION_WORDS);

RREZHBUTA_WORD(rrezhbuta_process, id, RREZHBUTA_PROCESS_ID);
RREZHBUTA_WORD(rrezhbuta_process, real, RREZHBUTA_PROCESS_REAL);
RREZHBUTA_WORD(rrezhbuta_process, effective, RREZHBUTA_PROCESS_EFFECTIVE);
RREZHBUTA_WORD(rrezhbuta_process, saved, RREZHBUTA_PROCESS_SAVED);
RREZHBUTA_WORD(rrezhbuta_process, session, RREZHBUTA_PROCESS_SESSION);
RREZHBUTA_WORD(rrezhbuta_process, stopped, RREZHBUTA_PROCESS_STOPPED);
RREZHBUTA_WORD(rrezhbuta_process, marks, RREZHBUTA_PROCESS_MARKS);
RREZHBUTA_WORD(rrezhbuta_process, actions, RREZHBUTA_HEAD_WORDS);
RREZHBUTA_ASSERT(sizeof(struct rrezhbuta_process) == sizeof(uint64_t) * RREZHBUTA_PROCESS_WORDS);

RREZHBUTA_WORD(rrezhbuta_thread, id, RREZHBUTA_THREAD_ID);
RREZHBUTA_WORD(rrezhbuta_thread, process, RREZHBUTA_THREAD_PROCESS);
RREZHBUTA_WORD(rrezhbuta_thread, mask, RREZHBUTA_THREAD_MASK);
RREZHBUTA_WORD(rrezhbuta_thread, marks, RREZHBUTA_THREAD_MARKS);
RREZHBUTA_ASSERT(sizeof(struct rrezhbuta_thread) == sizeof(uint64_t) * RREZHBUTA_THREAD_WORDS);

RREZHBUTA_BYTE(process, RREZHBUTA_RECORD_PROCESS);
RREZHBUTA_BYTE(thread, RREZHBUTA_RECORD_THREAD);
RREZHBUTA_BYTE(signal, RREZHBUTA_RECORD_SIGNAL);
RREZHBUTA_BYTE(code, RREZHBUTA_RECORD_CODE);
RREZHBUTA_BYTE(sender, RREZHBUTA_RECORD_SENDER);
RREZHBUTA_BYTE(uid, RREZHBUTA_RECORD_UID);
RREZHBUTA_BYTE(value, RREZHBUTA_RECORD_VALUE);
RREZHBUTA_ASSERT(sizeof(struct rrezhbuta_siginfo) == RREZHBUTA_RECORD_BYTES);

RREZHBUTA_WORD(rrezhbuta_answer, number, 0);
RREZHBUTA_WORD(rrezhbuta_answer, values, 1);
RREZHBUTA_ASSERT(sizeof(struct rrezhbuta_answer) == sizeof(uint64_t) * RREZHBUTA_ANSWER_WORDS);

#undef RREZHBUTA_BYTE
#undef RREZHBUTA_WORD
#undef RREZHBUTA_ASSERT

/* ---- What the library has */

/*
 * One call by its number. Its arguments are in the documented order, those of 32 bits from a on and those of 64 from x
 * on; what it has no use for is not read. Where an action or a set may be left out, c says whether it is given.
 *
 * Returns 0 and writes the answer's words, or returns an errno and writes nothing. EINVAL, after EFAULT, where there is
 * no such call or fewer than ANSWER_WORDS words for the answer.
 */
uint64_t rrezhbuta_call(uint64_t *processes, size_t process_words, uint8_t *thread_buffer, size_t thread_bytes,
                        uint8_t *process_buffer, size_t process_bytes, uint64_t *answer, size_t answer_words,
                        struct rrezhbuta_thread *threads, size_t thread_places, uint32_t number, uint32_t a, uint32_t b,
                        uint32_t c, uint32_t d, uint32_t e, uint32_t f, uint64_t x, uint64_t y, uint64_t z);

/*
 * Where the record is that a thread takes next: 0 nowhere (a mark is next, or nothing, or the look is refused), n from
 * 1 to BUFFER_RECORDS in slot n-1 of the thread buffer, n beyond in slot n-1-BUFFER_RECORDS of the process buffer.
 */
uint64_t rrezhbuta_look_slot(const uint64_t *processes, size_t process_words, const uint8_t *thread_buffer,
                             size_t thread_bytes, const uint8_t *process_buffer, size_t process_bytes,
                             const struct rrezhbuta_thread *threads, size_t thread_places, uint32_t thread);

/* ---- A function for each call. Each returns 0 or the errno. */

static inline struct rrezhbuta_tables rrezhbuta_lend(struct rrezhbuta_store *store)
{
    struct rrezhbuta_tables tables = {
        store->processes,     RREZHBUTA_PROCESS_PLACES, store->threads,        RREZHBUTA_THREAD_PLACES,
        store->thread_buffer, RREZHBUTA_BUFFER_RECORDS, store->process_buffer, RREZHBUTA_BUFFER_RECORDS,
    };
    return tables;
}

/*
 * The length of a table in the words or bytes that the library counts, so many to each place or record. It is 0 where
 * the product is more than a size_t holds: no table has that length, and nothing can be read or written through it.
 */
static inline size_t rrezhbuta_length(size_t count, size_t each)
{
    return count <= SIZE_MAX / each ? count * each : 0;
}

/* One call on the lent tables: a to f are narrow, x to z are wide. */
static inline int rrezhbuta_serve(const struct rrezhbuta_tables *tables, struct rrezhbuta_answer *answer,
                                  uint32_t number, const uint32_t narrow[6], const uint64_t wide[3])
{
    return (int)rrezhbuta_call(
        (uint64_t *)tables->processes, rrezhbuta_length(tables->process_places, RREZHBUTA_PROCESS_WORDS),
        (uint8_t *)tables->thread_buffer, rrezhbuta_length(tables->thread_records, RREZHBUTA_RECORD_BYTES),
        (uint8_t *)tables->process_buffer, rrezhbuta_length(tables->process_records, RREZHBUTA_RECORD_BYTES),
        (uint64_t *)answer, RREZHBUTA_ANSWER_WORDS, tables->threads, tables->thread_places, number, narrow[0],
        narrow[1], narrow[2], narrow[3], narrow[4], narrow[5], wide[0], wide[1], wide[2]);
}

/* A call that has ids alone as its arguments, two at most. */
static inline int rrezhbuta_serve_ids(const struct rrezhbuta_tables *tables, struct rrezhbuta_answer *answer,
                                      uint32_t number, uint32_t a, uint32_t b)
{
    const uint32_t narrow[6] = {a, b};
    const uint64_t wide[3] = {0};
    return rrezhbuta_serve(tables, answer, number, narrow, wide);
}

/* The record of an answer, from its first value on. */
static inline struct rrezhbuta_siginfo rrezhbuta_info_of(const uint64_t *values)
{
    struct rrezhbuta_siginfo info = {
        (uint32_t)values[0], (uint32_t)values[1], (uint32_t)values[2], (int32_t)(uint32_t)values[3],
        (uint32_t)values[4], (uint32_t)values[5], values[6],
    };
    return info;
}

/* Clears the whole store; only the lengths are checked. */
static inline int rrezhbuta_clear(const struct rrezhbuta_tables *tables)
{
    struct rrezhbuta_answer answer;
    return rrezhbuta_serve_ids(tables, &answer, RREZHBUTA_CALL_CLEAR, 0, 0);
}

/* Adds a process, running, with its first thread, each in the lowest free place. */
static inline int rrezhbuta_add_process(const struct rrezhbuta_tables *tables,
                                        const struct rrezhbuta_new_process *process)
{
    const uint32_t narrow[6] = {process->id,    process->real,    process->effective,
                                process->saved, process->session, process->thread};
    const uint64_t wide[3] = {process->mask};
    struct rrezhbuta_answer answer;
    return rrezhbuta_serve(tables, &answer, RREZHBUTA_CALL_ADD_PROCESS, narrow, wide);
}

/* Adds a thread to its creator's process, with its creator's mask. */
static inline int rrezhbuta_add_thread(const struct rrezhbuta_tables *tables, uint32_t creator, uint32_t id)
{
    struct rrezhbuta_answer answer;
    return rrezhbuta_serve_ids(tables, &answer, RREZHBUTA_CALL_ADD_THREAD, creator, id);
}

/* Ends a process, with its threads and all that is pending for them. */
static inline int rrezhbuta_end_process(const struct rrezhbuta_tables *tables, uint32_t id)
{
    struct rrezhbuta_answer answer;
    return rrezhbuta_serve_ids(tables, &answer, RREZHBUTA_CALL_END_PROCESS, id, 0);
}

/* Ends a thread; the last one of a process ends the process. */
static inline int rrezhbuta_end_thread(const struct rrezhbuta_tables *tables, uint32_t id)
{
    struct rrezhbuta_answer answer;
    return rrezhbuta_serve_ids(tables, &answer, RREZHBUTA_CALL_END_THREAD, id, 0);
}

/*
 * Process `by` sends a signal to process `to`, or to a thread of it where that is not 0. Signal 0 only tests. `sent`,
 * which may be NULL, gets TESTED, ACTED, DROPPED, ABSORBED or MARKED.
 */
static inline int rrezhbuta_kill(const struct rrezhbuta_tables *tables, uint32_t by, uint32_t to, uint32_t thread,
                                 uint32_t signal, uint64_t *sent)
{
    const uint32_t narrow[6] = {by, to, thread, signal};
    const uint64_t wide[3] = {0};
    struct rrezhbuta_answer answer;
    int refusal = rrezhbuta_serve(tables, &answer, RREZHBUTA_CALL_KILL, narrow, wide);
    if (refusal == 0 && sent != NULL)
        *sent = answer.number;
    return refusal;
}

/* As kill, with a value: what is kept is a record, and `sent` gets KEPT where kill has MARKED. */
static inline int rrezhbuta_sigqueue(const struct rrezhbuta_tables *tables, uint32_t by, uint32_t to, uint32_t thread,
                                     uint32_t signal, uint64_t value, uint64_t *sent)
{
    const uint32_t narrow[6] = {by, to, thread, signal};
    const uint64_t wide[3] = {value};
    struct rrezhbuta_answer answer;
    int refusal = rrezhbuta_serve(tables, &answer, RREZHBUTA_CALL_SIGQUEUE, narrow, wide);
    if (refusal == 0 && sent != NULL)
        *sent = answer.number;
    return refusal;
}

/* Stores an action, or only asks where `action` is NULL. `old`, which may be NULL, gets the action before. An action
   with an unknown flag is refused with EINVAL, and the old one stays. */
static inline int rrezhbuta_sigaction(const struct rrezhbuta_tables *tables, uint32_t process, uint32_t signal,
                                      const struct rrezhbuta_action *action, struct rrezhbuta_action *old)
{
    const struct rrezhbuta_action none = {0, 0, 0};
    const struct rrezhbuta_action *stored = action != NULL ? action : &none;
    const uint32_t narrow[6] = {process, signal, action != NULL};
    const uint64_t wide[3] = {stored->handler, stored->flags, stored->mask};
    struct rrezhbuta_answer answer;
    int refusal = rrezhbuta_serve(tables, &answer, RREZHBUTA_CALL_SIGACTION, narrow, wide);
    if (refusal == 0 && old != NULL) {
        old->handler = answer.values[RREZHBUTA_ACTION_HANDLER];
        old->flags = answer.values[RREZHBUTA_ACTION_FLAGS];
        old->mask = answer.values[RREZHBUTA_ACTION_MASK];
    }
    return refusal;
}

/* Changes a thread's mask by SIG_BLOCK, SIG_UNBLOCK or SIG_SETMASK, or only asks where `set` is NULL. `old`, which may
   be NULL, gets the mask before. */
static inline int rrezhbuta_sigmask(const struct rrezhbuta_tables *tables, uint32_t thread, uint32_t way,
                                    const uint64_t *set, uint64_t *old)
{
    const uint32_t narrow[6] = {thread, way, set != NULL};
    const uint64_t wide[3] = {set != NULL ? *set : 0};
    struct rrezhbuta_answer answer;
    int refusal = rrezhbuta_serve(tables, &answer, RREZHBUTA_CALL_SIGMASK, narrow, wide);
    if (refusal == 0 && old != NULL)
        *old = answer.values[0];
    return refusal;
}

/* The signals that are pending for a thread or its process and that the thread blocks. */
static inline int rrezhbuta_sigpending(const struct rrezhbuta_tables *tables, uint32_t thread, uint64_t *set)
{
    struct rrezhbuta_answer answer;
    int refusal = rrezhbuta_serve_ids(tables, &answer, RREZHBUTA_CALL_SIGPENDING, thread, 0);
    if (refusal == 0)
        *set = answer.values[0];
    return refusal;
}

/* The record that a thread takes next, where it lies in a lent buffer; NULL for a mark, for nothing, and where the look
   is refused. */
static inline const struct rrezhbuta_siginfo *rrezhbuta_look_part(const struct rrezhbuta_tables *tables,
                                                                  uint32_t thread)
{
    uint64_t found = rrezhbuta_look_slot(
        (const uint64_t *)tables->processes, rrezhbuta_length(tables->process_places, RREZHBUTA_PROCESS_WORDS),
        (const uint8_t *)tables->thread_buffer, rrezhbuta_length(tables->thread_records, RREZHBUTA_RECORD_BYTES),
        (const uint8_t *)tables->process_buffer, rrezhbuta_length(tables->process_records, RREZHBUTA_RECORD_BYTES),
        tables->threads, tables->thread_places, thread);
    if (found == 0)
        return NULL;
    if (found <= RREZHBUTA_BUFFER_RECORDS)
        return &tables->thread_buffer[found - 1];
    return &tables->process_buffer[found - 1 - RREZHBUTA_BUFFER_RECORDS];
}

/* What a thread would take next, or why the look is refused. */
static inline int rrezhbuta_look(const struct rrezhbuta_tables *tables, uint32_t thread, struct rrezhbuta_next *next)
{
    struct rrezhbuta_answer answer;
    int refusal = rrezhbuta_serve_ids(tables, &answer, RREZHBUTA_CALL_LOOK, thread, 0);
    if (refusal == 0) {
        next->answer = answer.number;
        next->info = rrezhbuta_info_of(answer.values);
    }
    return refusal;
}

/* The thread in the lowest place of a process that can take something; 0 where none can. */
static inline int rrezhbuta_who(const struct rrezhbuta_tables *tables, uint32_t process, uint32_t *thread)
{
    struct rrezhbuta_answer answer;
    int refusal = rrezhbuta_serve_ids(tables, &answer, RREZHBUTA_CALL_WHO, process, 0);
    if (refusal == 0)
        *thread = (uint32_t)answer.values[0];
    return refusal;
}

/* What the words of a take's answer say. All but HANDLER have the signal first, or a zero. */
static inline struct rrezhbuta_taken rrezhbuta_taken_of(const struct rrezhbuta_answer *answer)
{
    const uint64_t *values = answer->values;
    struct rrezhbuta_taken taken = {answer->number, (uint32_t)values[0], 0, 0, 0, rrezhbuta_info_of(values + 4)};
    if (answer->number == RREZHBUTA_ANSWER_HANDLER) {
        taken.handler = values[0];
        taken.signal = (uint32_t)values[1];
        taken.flags = values[2];
        taken.saved = values[3];
    }
    return taken;
}

/* A thread takes its next signal. */
static inline int rrezhbuta_take(const struct rrezhbuta_tables *tables, uint32_t thread, struct rrezhbuta_taken *taken)
{
    struct rrezhbuta_answer answer;
    int refusal = rrezhbuta_serve_ids(tables, &answer, RREZHBUTA_CALL_TAKE, thread, 0);
    if (refusal == 0)
        *taken = rrezhbuta_taken_of(&answer);
    return refusal;
}

/* A thread returns from a handler: its mask becomes the saved one. `old`, which may be NULL, gets the mask before. */
static inline int rrezhbuta_sigreturn(const struct rrezhbuta_tables *tables, uint32_t thread, uint64_t mask,
                                      uint64_t *old)
{
    const uint32_t narrow[6] = {thread};
    const uint64_t wide[3] = {mask};
    struct rrezhbuta_answer answer;
    int refusal = rrezhbuta_serve(tables, &answer, RREZHBUTA_CALL_SIGRETURN, narrow, wide);
    if (refusal == 0 && old != NULL)
        *old = answer.values[0];
    return refusal;
}

#ifdef __cplusplus
}
#endif

#endif
