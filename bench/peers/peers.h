// Shared stacks and queues of C libraries, behind calls that optimization at link time inlines, and a table of theirs.
//
// A node of a stack or queue is one pointer. An element begins with one, so its address is its node's. What a library's
// package would bring is there if WITH_CK or WITH_URCU is defined.
#ifndef BESIDE_PEERS_H
#define BESIDE_PEERS_H

#include <stddef.h>
#include <stdint.h>

#ifdef __cplusplus
extern "C" {
#endif

// The hash of a key, as the toolchain's `FoldHasher` has it: a product of 128 bits, whose halves are joined.
static inline uint64_t hash_key(uint64_t key) {
  uint64_t state = 0x243f6a8885a308d3u ^ key;
  unsigned __int128 product = (unsigned __int128)state * (0x9e3779b97f4a7c15u ^ 16);
  return (uint64_t)product ^ (uint64_t)(product >> 64);
}

// Of a stack: an empty one, a push of a node, and a taking of all nodes, which returns the last one pushed, or a null
// pointer. `after` returns the node that was pushed before a taken one, if there is one.
#define STACK(NAME)                             \
  void *NAME##_make(void);                      \
  void NAME##_push(void *stack, void *node);    \
  void *NAME##_take_all(void *stack);           \
  void *NAME##_after(void *node)

#ifdef WITH_CK
STACK(ckstack);

// A table of Concurrency Kit that finds pointers by numbers: one with room for `count` of them, as it is half full at
// most. A number is neither 0 nor the greatest. The calls of its library are not inlined.
void *cktable_make(size_t count);
void cktable_free(void *table);
void cktable_put(void *table, uint64_t key, void *value);

// Both return the pointer of a key, or a null pointer if it has none.
void *cktable_get(void *table, uint64_t key);
void *cktable_remove(void *table, uint64_t key);
#endif

#ifdef WITH_URCU
STACK(wfstack);
STACK(lfstack);

// Of liburcu's queue: an empty one, and a node that goes in. A node comes out by one of three calls. The first two are
// for a thread that alone takes out: the first waits for a producer that has yet to link a node, the second does not.
// The third takes the queue's lock first. Each returns a null pointer if there is no node.
void *wfqueue_make(void);
void wfqueue_put(void *queue, void *node);
void *wfqueue_take(void *queue);
void *wfqueue_take_at_once(void *queue);
void *wfqueue_take_by_lock(void *queue);

// A chain of nodes that one thread links. `wfchain_put` adds a node to it, `wfchain_move_in` moves all of its nodes to
// the end of a queue, and `wfchain_move_out` all nodes of a queue to its end.
void *wfchain_make(void);
void wfchain_put(void *chain, void *node);
void wfchain_move_in(void *chain, void *queue);
void wfchain_move_out(void *chain, void *queue);
void *wfchain_take(void *chain);
#endif

#ifdef __cplusplus
}
#endif

#endif
