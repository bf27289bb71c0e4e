// The calls of peers.h. What threads share lies in cache lines of its own, two for each word.
#define _LGPL_SOURCE

#include "peers.h"

#include <stdlib.h>
#include <string.h>

// How far apart words lie that different threads write: processors fetch lines in pairs.
#define APART 128

static void *made(size_t size) {
  size_t whole = (size + APART - 1) / APART * APART;
  void *memory = aligned_alloc(APART, whole);
  if (memory == NULL) {
    abort();
  }
  memset(memory, 0, whole);
  return memory;
}

#ifdef WITH_CK
#include <ck_ht.h>
#include <ck_stack.h>

void *ckstack_make(void) {
  ck_stack_t *stack = made(sizeof *stack);
  ck_stack_init(stack);
  return stack;
}

void ckstack_push(void *stack, void *node) {
  ck_stack_push_mpmc(stack, node);
}

void *ckstack_take_all(void *stack) {
  return ck_stack_batch_pop_mpmc(stack);
}

void *ckstack_after(void *node) {
  return CK_STACK_NEXT((ck_stack_entry_t *)node);
}

static void *allocate(size_t size) {
  return malloc(size);
}

static void release(void *memory, size_t size, bool is_deferred) {
  (void)size;
  (void)is_deferred;
  free(memory);
}

static struct ck_malloc memory_of_tables = {.malloc = allocate, .free = release};

static void hash_number(ck_ht_hash_t *hash, const void *key, size_t length, uint64_t seed) {
  (void)length;
  (void)seed;
  hash->value = hash_key(*(const uint64_t *)key);
}

void *cktable_make(size_t count) {
  ck_ht_t *table = made(sizeof *table);
  if (!ck_ht_init(table, CK_HT_MODE_DIRECT, hash_number, &memory_of_tables, 2 * count, 0)) {
    abort();
  }
  return table;
}

void cktable_free(void *at) {
  ck_ht_t *table = at;
  ck_ht_destroy(table);
  free(table);
}

void cktable_put(void *at, uint64_t key, void *value) {
  ck_ht_t *table = at;
  ck_ht_hash_t hash;
  ck_ht_entry_t entry;
  ck_ht_hash_direct(&hash, table, key);
  ck_ht_entry_set_direct(&entry, hash, key, (uintptr_t)value);
  if (!ck_ht_put_spmc(table, hash, &entry)) {
    abort();
  }
}

void *cktable_get(void *at, uint64_t key) {
  ck_ht_t *table = at;
  ck_ht_hash_t hash;
  ck_ht_entry_t entry;
  ck_ht_hash_direct(&hash, table, key);
  ck_ht_entry_key_set_direct(&entry, key);
  return ck_ht_get_spmc(table, hash, &entry) ? ck_ht_entry_value(&entry) : NULL;
}

void *cktable_remove(void *at, uint64_t key) {
  ck_ht_t *table = at;
  ck_ht_hash_t hash;
  ck_ht_entry_t entry;
  ck_ht_hash_direct(&hash, table, key);
  ck_ht_entry_key_set_direct(&entry, key);
  return ck_ht_remove_spmc(table, hash, &entry) ? ck_ht_entry_value(&entry) : NULL;
}
#endif

#ifdef WITH_URCU
#include <urcu/lfstack.h>
#include <urcu/wfcqueue.h>
#include <urcu/wfstack.h>

void *wfstack_make(void) {
  struct __cds_wfs_stack *stack = made(sizeof *stack);
  __cds_wfs_init(stack);
  return stack;
}

void wfstack_push(void *stack, void *node) {
  cds_wfs_node_init(node);
  cds_wfs_push((struct __cds_wfs_stack *)stack, node);
}

void *wfstack_take_all(void *stack) {
  struct cds_wfs_head *head = __cds_wfs_pop_all((struct __cds_wfs_stack *)stack);
  return head == NULL ? NULL : cds_wfs_first(head);
}

void *wfstack_after(void *node) {
  return cds_wfs_next_blocking(node);
}

void *lfstack_make(void) {
  struct __cds_lfs_stack *stack = made(sizeof *stack);
  __cds_lfs_init(stack);
  return stack;
}

void lfstack_push(void *stack, void *node) {
  cds_lfs_node_init(node);
  cds_lfs_push((struct __cds_lfs_stack *)stack, node);
}

void *lfstack_take_all(void *stack) {
  return __cds_lfs_pop_all((struct __cds_lfs_stack *)stack);
}

void *lfstack_after(void *node) {
  return ((struct cds_lfs_node *)node)->next;
}

// The consumer's end and the producers'.
struct queue {
  struct cds_wfcq_head head;
  char between[APART];
  struct cds_wfcq_tail tail;
};

void *wfqueue_make(void) {
  struct queue *queue = made(sizeof *queue);
  cds_wfcq_init(&queue->head, &queue->tail);
  return queue;
}

void wfqueue_put(void *at, void *node) {
  struct queue *queue = at;
  cds_wfcq_node_init(node);
  cds_wfcq_enqueue(&queue->head, &queue->tail, node);
}

void *wfqueue_take(void *at) {
  struct queue *queue = at;
  return __cds_wfcq_dequeue_blocking(&queue->head, &queue->tail);
}

void *wfqueue_take_at_once(void *at) {
  struct queue *queue = at;
  struct cds_wfcq_node *node = __cds_wfcq_dequeue_nonblocking(&queue->head, &queue->tail);
  return node == CDS_WFCQ_WOULDBLOCK ? NULL : node;
}

void *wfqueue_take_by_lock(void *at) {
  struct queue *queue = at;
  return cds_wfcq_dequeue_blocking(&queue->head, &queue->tail);
}

// A queue that one thread has, whose parts need not lie apart.
struct chain {
  struct __cds_wfcq_head head;
  struct cds_wfcq_tail tail;
};

void *wfchain_make(void) {
  struct chain *chain = made(sizeof *chain);
  __cds_wfcq_init(&chain->head, &chain->tail);
  return chain;
}

// No other thread has the chain, so no step has to be atomic.
void wfchain_put(void *at, void *node) {
  struct chain *chain = at;
  cds_wfcq_node_init(node);
  chain->tail.p->next = node;
  chain->tail.p = node;
}

void wfchain_move_in(void *at, void *to) {
  struct chain *chain = at;
  struct queue *queue = to;
  __cds_wfcq_splice_blocking(&queue->head, &queue->tail, &chain->head, &chain->tail);
}

void wfchain_move_out(void *at, void *from) {
  struct chain *chain = at;
  struct queue *queue = from;
  __cds_wfcq_splice_blocking(&chain->head, &chain->tail, &queue->head, &queue->tail);
}

void *wfchain_take(void *at) {
  struct chain *chain = at;
  return __cds_wfcq_dequeue_blocking(&chain->head, &chain->tail);
}
#endif
