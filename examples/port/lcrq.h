// LCRQ of Morrison and Afek, "Fast concurrent queues for x86 processors", PPoPP 2013, in C11.

#ifndef LCRQ_H
#define LCRQ_H

#include <stdbool.h>

#define NONE (~0ul) // no value: the one number that can't be enqueued

struct queue {
    struct ring *head, *tail;
};

// How many cells each ring has, and whether the enqueue that asks has tried for too long.
extern unsigned long ring_cells;
extern bool (*starving)(void);

// What the port does in another way than the pseudo-code, on purpose: a thread keeps the ring that it
// could not link, for its next enqueue that needs one; and an enqueue reads a whole cell at once.
extern bool keeps_rings, reads_cells;

void open_queue(struct queue *queue);
bool enqueue(struct queue *queue, unsigned long x); // always true
unsigned long dequeue(struct queue *queue);         // NONE where the queue is empty

#endif
