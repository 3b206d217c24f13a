// LCRQ in C11, line by line the pseudo-code of docs/MODEL.md: a line of it with a label is a STEP of
// this label, which makes its one access.
//
// It needs a 16-byte compare-and-swap (-mcx16 on x86-64). A ring is never given back: there is no
// reclamation here. -DBUG=n plants one of four bugs, for tools/conform.py to find; `keeps_rings` and
// `reads_cells` are deviations that are meant, which keep.allow and cell.allow name for it.

#include <stdint.h>
#include <stdlib.h>

#include "lcrq.h"
#include "log.h"

enum { NO_BUG, UNSAFE_IGNORED, ONE_LOOK, NO_REPAIR, LOST_RACE_FAILS };
#ifndef BUG
#define BUG NO_BUG
#endif

#define TOP (1ul << 63) // the closed bit of a tail, the safe bit of an index
#define COUNT(word) ((word) & ~TOP)
#define STATE(tail) ((tail) & TOP ? "closed" : "open")
#define WON(won) ((won) ? "won" : "lost")

union cell {
    struct {
        unsigned long value, index; // the index with the safe bit
    };
    unsigned __int128 both;
};

struct ring {
    unsigned long head, tail; // the tail with the closed bit
    struct ring *next;
    _Alignas(16) union cell cells[];
};

unsigned long ring_cells = 4;
bool (*starving)(void);
bool keeps_rings, reads_cells;

static _Thread_local struct ring *kept; // that this thread could not link

#define LOAD(at) __atomic_load_n(at, __ATOMIC_SEQ_CST)
#define ADD(at) __atomic_fetch_add(at, 1, __ATOMIC_SEQ_CST)
#define CLOSE(at) __atomic_fetch_or(at, TOP, __ATOMIC_SEQ_CST)
#define CAS(at, old, new) __sync_bool_compare_and_swap(at, old, new)

static bool cas2(union cell *at, bool safe, unsigned long index, unsigned long value, bool new_safe,
                 unsigned long new_index, unsigned long new_value) {
    union cell old = {{value, index | (safe ? TOP : 0)}};
    union cell new = {{new_value, new_index | (new_safe ? TOP : 0)}};
    return __sync_bool_compare_and_swap(&at->both, old.both, new.both);
}

// Both halves of a cell. A compare-and-swap that changes nothing is a load of 16 bytes.
static union cell load_cell(union cell *at) {
    return (union cell){.both = __sync_val_compare_and_swap(&at->both, 0, 0)};
}

// A value as a record has it.
static inline const char *shown(unsigned long value) {
    static _Thread_local char text[24];
    snprintf(text, sizeof text, "%lu", value);
    return value == NONE ? "none" : text;
}

static struct ring *make_ring(void) {
    size_t size = sizeof(struct ring) + ring_cells * sizeof(union cell);
    struct ring *made = aligned_alloc(16, size);
    if (!made) abort();
    *made = (struct ring){0};
    for (unsigned long at = 0; at < ring_cells; at++) made->cells[at] = (union cell){{NONE, at | TOP}};
    return made;
}

// A ring that holds x in cell 0 and has tail 1.
static struct ring *make_ring_with(unsigned long x) {
    struct ring *made = make_ring();
    made->tail = 1;
    made->cells[0].value = x;
    return made;
}

// The ring that this thread kept, holding x in cell 0.
static struct ring *take_kept_with(unsigned long x) {
    struct ring *taken = kept;
    kept = NULL;
    taken->cells[0].value = x;
    return taken;
}

void open_queue(struct queue *queue) {
    queue->head = queue->tail = make_ring();
}

bool enqueue(struct queue *queue, unsigned long x) {
    struct ring *crq, *next, *new;
    union cell *cell;
    unsigned long t, h, val, index, tail;
    bool won, starves;

e1: STEP(crq = LOAD(&queue->tail), "E1 %p", (void *)crq);
    STEP(next = LOAD(&crq->next), "E2 %p", (void *)next);
    if (!next) goto e4;
    STEP(won = CAS(&queue->tail, crq, next), "E3 %s", WON(won));
    goto e1;
e4: STEP(tail = ADD(&crq->tail), "E4 %s %lu", STATE(tail), COUNT(tail));
    if (tail & TOP) goto e12;
    t = tail;
    cell = &crq->cells[t % ring_cells];
    if (reads_cells) {
        union cell whole;
        STEP((whole = load_cell(cell), val = whole.value, index = whole.index), "E5 %d %lu %s; t %lu", index >= TOP,
             COUNT(index), shown(val), t);
    } else {
        STEP(val = LOAD(&cell->value), "E5 %s", shown(val));
        STEP(index = LOAD(&cell->index), "E6 %d %lu; t %lu", index >= TOP, COUNT(index), t);
    }
    if (val != NONE || COUNT(index) > t) goto e9;
    if (index & TOP || BUG == UNSAFE_IGNORED) goto e8;
    STEP(h = LOAD(&crq->head), "E7 %lu", h);
    if (h > t) goto e9;
e8: STEP(won = cas2(cell, index >= TOP, COUNT(index), NONE, true, t, x), "E8 %s", WON(won));
    if (won) return true;
e9: STEP(h = LOAD(&crq->head), "E9 %lu", h);
    if (t >= h + ring_cells) goto e11;
    STEP(starves = starving(), "E10 %s", starves ? "yes" : "no");
    if (!starves) goto e4;
e11:
    STEP(tail = CLOSE(&crq->tail), "E11 was %s", STATE(tail));
e12:
    if (kept) new = take_kept_with(x);
    else STEP(new = make_ring_with(x), "E12 made %p", (void *)new);
    STEP(won = CAS(&crq->next, NULL, new), "E13 %s", WON(won));
    if (!won && keeps_rings) kept = new;
    if (!won) goto e1;
    STEP(won = CAS(&queue->tail, crq, new), "E14 %s", WON(won));
    return BUG == LOST_RACE_FAILS ? won : true;
}

unsigned long dequeue(struct queue *queue) {
    struct ring *crq, *next = NULL;
    union cell *cell;
    unsigned long t, h, val, index, tail, again;
    bool won;
    int pass;

q1: STEP(crq = LOAD(&queue->head), "Q1 %p", (void *)crq);
    pass = 1;
q2: STEP(h = ADD(&crq->head), "Q2 %lu; pass %d", h, pass);
    cell = &crq->cells[h % ring_cells];
q3: STEP(val = LOAD(&cell->value), "Q3 %s", shown(val));
    STEP(index = LOAD(&cell->index), "Q4 %d %lu; h %lu", index >= TOP, COUNT(index), h);
    if (COUNT(index) > h) goto q8;
    if (val == NONE) goto q7;
    if (COUNT(index) < h) goto q6;
    STEP(won = cas2(cell, index >= TOP, COUNT(index), val, index >= TOP, h + ring_cells, NONE), "Q5 %s", WON(won));
    if (won) return val;
    goto q3;
q6: STEP(won = cas2(cell, index >= TOP, COUNT(index), val, false, COUNT(index), val), "Q6 %s", WON(won));
    if (won) goto q8;
    goto q3;
q7: STEP(won = cas2(cell, index >= TOP, COUNT(index), NONE, index >= TOP, h + ring_cells, NONE), "Q7 %s", WON(won));
    if (!won) goto q3;
q8: STEP(tail = LOAD(&crq->tail), "Q8 %s %lu", STATE(tail), COUNT(tail));
    if (COUNT(tail) > h + 1) goto q2;
    if (BUG == NO_REPAIR) goto done;
q9: STEP(tail = LOAD(&crq->tail), "Q9 %s %lu", STATE(tail), COUNT(tail));
    t = COUNT(tail);
    STEP(h = LOAD(&crq->head), "Q10 %lu", h);
    STEP(again = LOAD(&crq->tail), "Q11 %s %lu", STATE(again), COUNT(again));
    if (again != tail) goto q9;
    if (tail & TOP || h <= t) goto done;
    STEP(won = CAS(&crq->tail, t, h), "Q12 %s", WON(won));
    if (!won) goto q9;
done:
    if (pass == 2) goto q14;
    STEP(next = LOAD(&crq->next), "Q13 %p", (void *)next);
    if (!next) return NONE;
    pass = 2;
    if (BUG != ONE_LOOK) goto q2;
q14:
    STEP(won = CAS(&queue->head, crq, next), "Q14 %s", WON(won));
    goto q1;
}
