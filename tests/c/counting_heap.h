/* A heap over malloc that counts its blocks, and can refuse the Nth request for memory. */
#ifndef COUNTING_HEAP_H
#define COUNTING_HEAP_H

/*
 * How many requests for memory there were, which of them is refused (0 for none), and how many
 * blocks are in use.
 */
extern unsigned long heap_requests, heap_refused;
extern long heap_blocks;

#endif
