// The log of a port's accesses, for tools/conform.py: what a port of LCRQ copies.
//
// STEP makes one access and writes one record, both under one lock, so the stamps are the true order
// of the accesses. The lock also makes them sequentially consistent: a port that is wrong only
// because of its memory order looks right here. One file of the port defines LOG_HERE before it
// includes this; each thread sets `log_actor`, 1 to 16, before its first call, and `log_write` writes
// the log when all have ended. With -DNO_LOG the accesses alone are left.
//
// With -DLOG_HARDWARE there is no lock: each thread reads the processor's clock before and after its
// access, and writes both into a buffer of its own. Two accesses whose stamps overlap may have been
// made in either order, and conform.py looks for one.

#ifndef LOG_H
#define LOG_H

#include <pthread.h>
#include <stdio.h>
#include <stdlib.h>

struct log {
    pthread_mutex_t lock;
    unsigned long stamp; // of the last record
    FILE *to;
    void (*before)(void); // called before the lock is taken, where it is set: a yield, or a scheduler
    void (*after)(void);  // called after the lock is released, where it is set
};

extern struct log log_all;
extern _Thread_local int log_actor;

#ifdef LOG_HERE
struct log log_all = {.lock = PTHREAD_MUTEX_INITIALIZER};
_Thread_local int log_actor;
#endif

// An access, and its record by the format and the values of printf that follow it. A record of a call
// or a reply has no access: STEP(, "enq %lu", x).
#ifdef NO_LOG
#define STEP(access, ...) do { access; } while (0)
static inline void log_write(void) {}

#elif defined LOG_HARDWARE
struct log_buffer {
    FILE *to;
    char *text;
    size_t size;
};

extern struct log_buffer log_buffers[17]; // of each actor, the first of none
#ifdef LOG_HERE
struct log_buffer log_buffers[17];
#endif

// The time, when all before is done and nothing after has begun. A store is done only if it is locked,
// as those of a compare-and-swap and of a fetch-and-add are.
static inline unsigned long log_time(void) {
    unsigned low, high;
    __asm__ volatile("rdtscp\n\tlfence" : "=a"(low), "=d"(high) : : "rcx", "memory");
    return (unsigned long)high << 32 | low;
}

static inline FILE *log_begin(unsigned long before, unsigned long after) {
    struct log_buffer *own = &log_buffers[log_actor];
    if (!own->to && !(own->to = open_memstream(&own->text, &own->size))) abort();
    fprintf(own->to, "%lu-%lu %d ", before, after, log_actor);
    return own->to;
}

static inline void log_end(FILE *to) {
    putc('\n', to);
    if (log_all.after) log_all.after();
}

static inline void log_write(void) {
    for (struct log_buffer *own = log_buffers; own < log_buffers + 17; own++) {
        if (!own->to) continue;
        if (fclose(own->to)) abort();
        fwrite(own->text, 1, own->size, log_all.to);
    }
}

#define STEP(access, ...) do { \
    if (log_all.before) log_all.before(); \
    unsigned long log_first = log_time(); \
    access; \
    FILE *log_to = log_begin(log_first, log_time()); \
    fprintf(log_to, __VA_ARGS__); \
    log_end(log_to); \
} while (0)

#else
static inline void log_begin(void) {
    if (log_all.before) log_all.before();
    pthread_mutex_lock(&log_all.lock);
    fprintf(log_all.to, "%lu %d ", ++log_all.stamp, log_actor);
}

static inline void log_end(void) {
    putc('\n', log_all.to);
    pthread_mutex_unlock(&log_all.lock);
    if (log_all.after) log_all.after();
}

static inline void log_write(void) {}

#define STEP(access, ...) do { log_begin(); access; fprintf(log_all.to, __VA_ARGS__); log_end(); } while (0)
#endif

#endif
