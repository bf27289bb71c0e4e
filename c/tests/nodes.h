/* What the tests of nodes share: jobs whose links lie between two words that nobody else writes, and a count of what the
 * library asks for and frees. */
#ifndef NODES_H
#define NODES_H

#include <string.h>

#include "checked.h"
#include "cordyceps_heap.h"

static size_t requests, frees;

void *cordyceps_malloc(size_t bytes) {
  requests++;
  return malloc(bytes);
}

void *cordyceps_realloc(void *block, size_t bytes) {
  requests++;
  return realloc(block, bytes);
}

void cordyceps_free(void *block) {
  frees++;
  free(block);
}

struct job {
  uint64_t before;
  cordyceps_links links;
  uint64_t after;
  uint64_t number; /* the caller's, also while the job is in a collection */
};

enum { EACH = 20, JOBS = 3 * EACH };

/* Jobs on the stack of a caller, in static memory and on the heap, side by side. */
struct jobs {
  struct job on_stack[EACH];
  struct job *on_heap[EACH];
  struct job *all[JOBS];
};

static uint64_t mark_of(const struct job *it) { return (uint64_t)(uintptr_t)it ^ 0x5bd1e995a5a5a5a5u; }

static inline void make_job(struct job *it, uint64_t number) {
  struct job made = {mark_of(it), CORDYCEPS_LINKS_INIT, ~mark_of(it), number};
  *it = made;
}

static inline void make_jobs(struct jobs *it) {
  static struct job in_static[EACH];
  for (size_t i = 0; i < EACH; i++) {
    it->on_heap[i] = malloc(sizeof *it->on_heap[i]);
    CHECK(it->on_heap[i]);
    it->all[3 * i] = &it->on_stack[i];
    it->all[3 * i + 1] = &in_static[i];
    it->all[3 * i + 2] = it->on_heap[i];
  }
  for (size_t i = 0; i < JOBS; i++)
    make_job(it->all[i], i);
}

/* Nobody but the caller wrote to a job outside its links. */
static inline void is_whole(const struct job *it, uint64_t number) {
  CHECK(it->before == mark_of(it) && it->after == ~mark_of(it) && it->number == number);
}

/* Each job is whole, is the caller's memory, and goes into a list again. */
static inline void end_jobs(struct jobs *it) {
  cordyceps_node_list_memory memory = CORDYCEPS_NODE_LIST_INIT;
  cordyceps_node_list list = {&memory};
  for (size_t i = 0; i < JOBS; i++) {
    is_whole(it->all[i], i);
    CHECK(it->all[i]->links.home == 1);
    cordyceps_node_list_add_last(&list, &it->all[i]->links);
  }
  for (size_t i = 0; i < JOBS; i++)
    CHECK(cordyceps_node_list_take_first(&list) == &it->all[i]->links);
  CHECK(!cordyceps_node_list_take_first(&list) && cordyceps_node_list_free(&list) && !list.at);
  for (size_t i = 0; i < EACH; i++)
    free(it->on_heap[i]);
}

static inline uint32_t random_below(uint32_t n) {
  static uint64_t seed = 88172645463325252u;
  seed ^= seed << 13;
  seed ^= seed >> 7;
  seed ^= seed << 17;
  return (uint32_t)(seed >> 32) % n;
}

#endif
