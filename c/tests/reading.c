/* The calls that only read store nothing. So they may be made on handles in memory that cannot be written, and threads
 * may make them at the same time, while a read lock keeps all other calls away. The test counts each wrong answer. */
#include <pthread.h>
#include <stddef.h>
#include <string.h>
#include <sys/mman.h>

#include "checked.h"

enum { READERS = 4, NODES = 3 };

/* One of each collection that has such calls, with the nodes of those of nodes. */
struct shelf {
  cordyceps_list list;
  cordyceps_timers timers;
  cordyceps_queue queue;
  cordyceps_node_list node_list;
  cordyceps_node_queue node_queue;
  cordyceps_node_list_memory list_memory;
  cordyceps_node_queue_memory queue_memory;
  cordyceps_links listed[NODES], queued[NODES];
  cordyceps_ticket first, last;
};

struct reader {
  struct shelf *of;
  pthread_rwlock_t *lock;
  unsigned long turns, wrong;
};

static void fill(struct shelf *it) {
  cordyceps_ticket ticket;
  *it = (struct shelf){.list_memory = CORDYCEPS_NODE_LIST_INIT, .queue_memory = CORDYCEPS_NODE_QUEUE_INIT};
  it->node_list.at = &it->list_memory;
  it->node_queue.at = &it->queue_memory;
  CHECK(cordyceps_list_new(1, &it->list) && cordyceps_timers_new(2, &it->timers) && cordyceps_queue_new(3, &it->queue));
  CHECK(cordyceps_list_push_back(&it->list, 7, &it->first) && cordyceps_list_push_back(&it->list, 8, &it->last));
  CHECK(cordyceps_timers_start(&it->timers, 64, 1, &ticket) && cordyceps_queue_push(&it->queue, 5, 6, &ticket));
  for (int i = 0; i < NODES; i++) {
    it->listed[i] = it->queued[i] = (cordyceps_links)CORDYCEPS_LINKS_INIT;
    cordyceps_node_list_add_last(&it->node_list, &it->listed[i]);
    cordyceps_node_queue_add(&it->node_queue, &it->queued[i], 9);
  }
}

static void empty(struct shelf *it) {
  CHECK(cordyceps_list_free(&it->list) && cordyceps_timers_free(&it->timers) && cordyceps_queue_free(&it->queue));
  for (int i = 0; i < NODES; i++)
    CHECK(cordyceps_node_list_take_first(&it->node_list) && cordyceps_node_queue_take_first(&it->node_queue));
  CHECK(cordyceps_node_list_free(&it->node_list) && cordyceps_node_queue_free(&it->node_queue));
}

static bool same(cordyceps_ticket a, cordyceps_ticket b) {
  return a.collection == b.collection && a.slot == b.slot && a.number == b.number;
}

/* How many of the calls that only read give a wrong answer, of a list and of timers and queues with tickets. */
static unsigned long wrong_by_tickets(struct shelf *it) {
  cordyceps_ticket out = {0};
  uint64_t payload = 0, until = 0;
  unsigned long wrong = !(cordyceps_list_get(&it->list, it->first, &payload) && payload == 7);
  wrong += !(cordyceps_list_front(&it->list, &out) && same(out, it->first));
  wrong += !(cordyceps_list_back(&it->list, &out) && same(out, it->last));
  wrong += !(cordyceps_list_next(&it->list, it->first, &out) && same(out, it->last));
  wrong += !(cordyceps_list_prev(&it->list, it->last, &out) && same(out, it->first));
  wrong += cordyceps_list_len(&it->list) != 2;
  wrong += !(cordyceps_timers_not_before(&it->timers, &until) && until == 64);
  wrong += cordyceps_timers_len(&it->timers) != 1;
  wrong += cordyceps_queue_len(&it->queue) != 1;
  return wrong;
}

/* The same of a list and a queue of nodes. */
static unsigned long wrong_by_spots(struct shelf *it) {
  cordyceps_spot first = cordyceps_spot_of(&it->listed[0]), last = cordyceps_spot_of(&it->listed[2]), at = {NULL};
  unsigned long wrong = !(cordyceps_node_list_front(&it->node_list, &at) && at.at == first.at);
  wrong += !(cordyceps_node_list_next(&it->node_list, first, &at) && at.at == &it->listed[1]);
  wrong += !(cordyceps_node_list_prev(&it->node_list, last, &at) && at.at == &it->listed[1]);
  wrong += !(cordyceps_node_list_back(&it->node_list, &at) && at.at == last.at);
  wrong += cordyceps_node_list_len(&it->node_list) != NODES;
  wrong += cordyceps_node_queue_len(&it->node_queue) != NODES;
  return wrong;
}

/* A call that stores into a handle, or into the memory of a list or a queue of nodes, ends this test by a signal. */
static void read_what_cannot_be_written(void) {
  struct shelf *it = mmap(NULL, sizeof *it, PROT_READ | PROT_WRITE, MAP_PRIVATE | MAP_ANONYMOUS, -1, 0);
  CHECK(it != MAP_FAILED);
  fill(it);
  CHECK(!mprotect(it, sizeof *it, PROT_READ));
  CHECK(wrong_by_tickets(it) == 0 && wrong_by_spots(it) == 0);
  CHECK(!mprotect(it, sizeof *it, PROT_READ | PROT_WRITE));
  empty(it);
  CHECK(!munmap(it, sizeof *it));
}

static void *read_all(void *given) {
  struct reader *it = given;
  for (unsigned long i = 0; i < it->turns; i++) {
    CHECK(!pthread_rwlock_rdlock(it->lock));
    it->wrong += wrong_by_tickets(it->of) + wrong_by_spots(it->of);
    CHECK(!pthread_rwlock_unlock(it->lock));
  }
  return NULL;
}

/* While threads read, another changes the lists between two of their turns, and puts back what it took out. */
static void read_beside_each_other(unsigned long turns) {
  struct shelf shelf;
  struct reader readers[READERS];
  pthread_t threads[READERS];
  pthread_rwlock_t lock = PTHREAD_RWLOCK_INITIALIZER;
  unsigned long wrong = 0;
  fill(&shelf);
  for (int i = 0; i < READERS; i++) {
    readers[i] = (struct reader){&shelf, &lock, turns, 0};
    CHECK(!pthread_create(&threads[i], NULL, read_all, &readers[i]));
  }
  for (unsigned long i = 0; i < turns / 16; i++) {
    uint64_t payload;
    CHECK(!pthread_rwlock_wrlock(&lock));
    CHECK(cordyceps_list_pop_back(&shelf.list, &payload) && payload == 8);
    CHECK(cordyceps_list_push_back(&shelf.list, 8, &shelf.last));
    cordyceps_node_list_add_last(&shelf.node_list, cordyceps_node_list_take_last(&shelf.node_list));
    CHECK(!pthread_rwlock_unlock(&lock));
  }
  for (int i = 0; i < READERS; i++) {
    CHECK(!pthread_join(threads[i], NULL));
    wrong += readers[i].wrong;
  }
  if (wrong)
    fprintf(stderr, "%lu wrong answers of %lu\n", wrong, READERS * turns * 15);
  CHECK(!wrong);
  empty(&shelf);
}

int main(int count, char **words) {
  read_what_cannot_be_written();
  read_beside_each_other(count > 1 ? strtoull(words[1], NULL, 10) : 100000);
  return 0;
}
