// Calls of the queue by several threads, whose accesses are logged on standard output.
//
//     lcrq [--threads N] [--calls N] [--ring R] [--seed S] [--turns] [--keep] [--cell]
//
// Each of N threads (4) makes N calls (40), enqueues and dequeues as the seed (1) draws them, over
// rings of R cells (4). Call 7 of thread 2 enqueues 702, and again where that failed. The threads run
// freely, and yield after some accesses; with --turns they make one access at a time, in an order
// that the seed draws, so the same seed gives the same log. When all are done, thread 1 dequeues
// until the queue is empty. --keep keeps rings that could not be linked, --cell reads whole cells.

#include <sched.h>
#include <stdint.h>
#include <stdlib.h>
#include <string.h>

#include "lcrq.h"
#define LOG_HERE
#include "log.h"

enum { MOST_THREADS = 16 };

static struct queue queue;
static long threads = 4, calls = 40, seed = 1;
static bool in_turns;

// ---- What the seed draws ----

static _Thread_local uint64_t state; // of this thread's generator
static uint64_t turns_state;         // of the order of turns
static unsigned enqueues, starves, stays, yields; // of 100: how often
static unsigned speeds[MOST_THREADS + 1];

static uint64_t draw(uint64_t *from) { // splitmix64
    uint64_t it = (*from += 0x9e3779b97f4a7c15);
    it = (it ^ (it >> 30)) * 0xbf58476d1ce4e5b9;
    it = (it ^ (it >> 27)) * 0x94d049bb133111eb;
    return it ^ (it >> 31);
}

static bool chance(uint64_t *from, unsigned of_100) {
    return draw(from) % 100 < of_100;
}

static bool draw_starving(void) {
    return chance(&state, starves);
}

// Slow threads come late to their cells, and so to the seldom lines.
static void draw_mix(void) {
    uint64_t from = (uint64_t)seed;
    enqueues = (unsigned[]){40, 50, 60}[draw(&from) % 3];
    starves = (unsigned[]){0, 5, 30}[draw(&from) % 3];
    stays = (unsigned[]){0, 50, 80}[draw(&from) % 3];
    yields = (unsigned[]){5, 20, 60}[draw(&from) % 3];
    for (int it = 1; it <= MOST_THREADS; it++) speeds[it] = (unsigned[]){1, 4, 20}[draw(&from) % 3];
    turns_state = draw(&from);
}

// ---- Turns ----

static pthread_mutex_t turns = PTHREAD_MUTEX_INITIALIZER;
static pthread_cond_t moved[MOST_THREADS + 1];
static bool is_left[MOST_THREADS + 1]; // who has not ended
static int turn;

static int next_turn(void) {
    if (is_left[turn] && chance(&turns_state, stays)) return turn;
    uint64_t sum = 0;
    for (int it = 1; it <= threads; it++) sum += is_left[it] ? speeds[it] : 0;
    if (!sum) return 0;
    uint64_t at = draw(&turns_state) % sum;
    for (int it = 1;; it++) {
        uint64_t part = is_left[it] ? speeds[it] : 0;
        if (at < part) return it;
        at -= part;
    }
}

static void wait_for_turn(void) {
    pthread_mutex_lock(&turns);
    while (turn != log_actor) pthread_cond_wait(&moved[log_actor], &turns);
    pthread_mutex_unlock(&turns);
}

static void pass_turn(void) {
    pthread_mutex_lock(&turns);
    turn = next_turn();
    if (turn != log_actor) pthread_cond_signal(&moved[turn]);
    pthread_mutex_unlock(&turns);
}

static void yield_now_and_then(void) {
    if (chance(&state, yields)) sched_yield();
}

// ---- Threads ----

static bool call_enqueue(unsigned long x) {
    bool is_done;
    STEP(, "enq %lu", x);
    is_done = enqueue(&queue, x);
    STEP(, "%s", is_done ? "enqueued" : "failed");
    return is_done;
}

static bool call_dequeue(void) {
    unsigned long value;
    STEP(, "deq");
    value = dequeue(&queue);
    if (value == NONE) STEP(, "empty");
    else STEP(, "value %lu", value);
    return value != NONE;
}

static void *run(void *number) {
    log_actor = (int)(intptr_t)number;
    state = (uint64_t)(seed * 100 + log_actor);
    for (long call = 1; call <= calls; call++) {
        if (!chance(&state, enqueues)) call_dequeue();
        else while (!call_enqueue((unsigned long)(call * 100 + log_actor)));
    }
    if (in_turns) {
        wait_for_turn();
        is_left[log_actor] = false;
        pass_turn();
    }
    return NULL;
}

static long option(const char *word, const char *text, long least, long most) {
    char *end = NULL;
    long value = text ? strtol(text, &end, 10) : 0;
    if (text && !*end && value >= least && value <= most) return value;
    fprintf(stderr, "lcrq: %s wants a number from %ld to %ld\n", word, least, most);
    exit(2);
}

static void read_options(char **words) {
    for (; *words; words++) {
        char *word = *words;
        if (!strcmp(word, "--turns")) in_turns = true;
        else if (!strcmp(word, "--keep")) keeps_rings = true;
        else if (!strcmp(word, "--cell")) reads_cells = true;
        else if (!strcmp(word, "--threads")) threads = option(word, *++words, 1, MOST_THREADS);
        else if (!strcmp(word, "--calls")) calls = option(word, *++words, 1, 999999);
        else if (!strcmp(word, "--ring")) ring_cells = (unsigned long)option(word, *++words, 1, 64);
        else if (!strcmp(word, "--seed")) seed = option(word, *++words, 0, 1000000000);
        else {
            fprintf(stderr, "lcrq: no option %s\n", word);
            exit(2);
        }
    }
}

int main(int count, char **words) {
    pthread_t started[MOST_THREADS + 1];
    (void)count;
    read_options(words + 1);
    draw_mix();
    log_all.to = stdout;
    log_all.before = in_turns ? wait_for_turn : NULL;
    log_all.after = in_turns ? pass_turn : yield_now_and_then;
    starving = draw_starving;
    open_queue(&queue);
    for (int it = 1; it <= threads; it++) {
        pthread_cond_init(&moved[it], NULL);
        is_left[it] = true;
    }
    turn = next_turn();
    for (intptr_t it = 1; it <= threads; it++)
        if (pthread_create(&started[it], NULL, run, (void *)it)) return 1;
    for (int it = 1; it <= threads; it++) pthread_join(started[it], NULL);
    log_actor = 1;
    log_all.before = log_all.after = NULL;
    while (call_dequeue());
    log_write();
    return fflush(stdout) || ferror(stdout) ? 1 : 0;
}
