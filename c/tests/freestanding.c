/* Without a C library: this program starts by itself, and its malloc takes blocks of a pool. When the pool is used up,
 * each call answers so; when there are blocks again, each one works; and when all is freed, the pool is whole. */
#include "bare.h"

enum { UNITS = 1024, ROOMS = 16 };

/* The pool is blocks, one after the other. The first unit of each says how many units it has. */
union unit {
  struct {
    size_t units;
    bool is_taken;
  } block;
  unsigned char bytes[16];
};

static union unit pool[UNITS] __attribute__((aligned(16))) = {{{UNITS, false}}};

/* Makes one block of a free one and those that follow it. */
static void join(union unit *it) {
  for (union unit *next; (next = it + it->block.units) < pool + UNITS && !next->block.is_taken;)
    it->block.units += next->block.units;
}

void *malloc(size_t size) {
  size_t units = size / sizeof *pool + 2;
  for (union unit *it = pool; it < pool + UNITS; it += it->block.units) {
    if (it->block.is_taken)
      continue;
    join(it);
    if (it->block.units < units)
      continue;
    if (it->block.units > units)
      it[units].block.units = it->block.units - units, it[units].block.is_taken = false;
    it->block.units = units, it->block.is_taken = true;
    return it + 1;
  }
  return NULL;
}

void free(void *block) {
  if (block)
    ((union unit *)block - 1)->block.is_taken = false;
}

void *realloc(void *block, size_t size) {
  void *to = malloc(size);
  if (to && block) {
    size_t had = (((union unit *)block - 1)->block.units - 1) * sizeof *pool;
    memcpy(to, block, had < size ? had : size);
    free(block);
  }
  return to;
}

static bool is_pool_whole(void) {
  if (!pool->block.is_taken)
    join(pool);
  return !pool->block.is_taken && pool->block.units == UNITS;
}

/* Takes all that is left of the pool, as blocks each of which leads to the one before. */
static void **take_all(void) {
  void **last = NULL;
  for (void **it; (it = malloc(sizeof *it)); last = it)
    *it = last;
  return last;
}

static void free_all(void **last) {
  for (void **before; last; last = before) {
    before = *last;
    free(last);
  }
}

struct all {
  cordyceps_timers timers;
  cordyceps_queue queue;
  cordyceps_inbox inbox;
  cordyceps_pile pile;
};

static void make(struct all *it) {
  CHECK(cordyceps_timers_new(0, &it->timers) && cordyceps_queue_new(0, &it->queue));
  CHECK(cordyceps_inbox_new(ROOMS, &it->inbox) && cordyceps_pile_new(ROOMS, &it->pile));
}

/* Without memory, each call that needs some answers so, and changes nothing. */
static void is_refused(struct all *it) {
  struct all other = {{0}, {0}, {0}, {0}};
  cordyceps_ticket ticket = {1, 2, 3};
  CHECK(!cordyceps_timers_new(0, &other.timers) && !other.timers.at);
  CHECK(!cordyceps_queue_new(0, &other.queue) && !other.queue.at);
  CHECK(!cordyceps_inbox_new(1, &other.inbox) && !cordyceps_inbox_split(&it->inbox, &other.inbox) && !other.inbox.at);
  CHECK(!cordyceps_pile_new(1, &other.pile) && !cordyceps_pile_split(&it->pile, &other.pile) && !other.pile.at);
  CHECK(!cordyceps_timers_start(&it->timers, 1, 2, &ticket) && !cordyceps_queue_push(&it->queue, 1, 2, &ticket));
  CHECK(ticket.collection == 1 && ticket.slot == 2 && ticket.number == 3);
  CHECK(cordyceps_inbox_send(&it->inbox, 1) == CORDYCEPS_NO_MEMORY);
  CHECK(cordyceps_pile_push(&it->pile, 1) == CORDYCEPS_NO_MEMORY);
}

/* Gives each collection so many payloads as there are rooms. */
static void fill(struct all *it) {
  cordyceps_ticket ticket;
  for (uint64_t i = 0; i < ROOMS; i++) {
    CHECK(cordyceps_timers_start(&it->timers, i, i, &ticket) && cordyceps_queue_push(&it->queue, i, i, &ticket));
    CHECK(cordyceps_inbox_send(&it->inbox, i) == CORDYCEPS_DONE);
    CHECK(cordyceps_pile_push(&it->pile, i) == CORDYCEPS_DONE);
  }
  CHECK(cordyceps_inbox_send(&it->inbox, 0) == CORDYCEPS_FULL && cordyceps_pile_push(&it->pile, 0) == CORDYCEPS_FULL);
}

static void drain_timers(cordyceps_timers *it, uint64_t count) {
  cordyceps_fired fired;
  for (uint64_t i = 0; i < count; i++)
    CHECK(cordyceps_timers_pop_due(it, UINT64_MAX, &fired) && fired.deadline == i && fired.payload == i);
  CHECK(cordyceps_timers_len(it) == 0);
}

static void drain(struct all *it) {
  cordyceps_item item;
  uint64_t payload;
  drain_timers(&it->timers, ROOMS);
  for (uint64_t i = 0; i < ROOMS; i++) {
    CHECK(cordyceps_queue_pop(&it->queue, &item) && item.key == i && item.payload == i);
    CHECK(cordyceps_inbox_receive(&it->inbox, &payload) == CORDYCEPS_DONE && payload == i);
    CHECK(cordyceps_pile_pop(&it->pile, &payload) && payload == ROOMS - 1 - i);
  }
}

static void run(void) {
  struct all all = {{0}, {0}, {0}, {0}};
  cordyceps_ticket ticket;
  uint64_t started = 0;
  make(&all);
  while (cordyceps_timers_start(&all.timers, started, started, &ticket))
    started++;
  CHECK(started > ROOMS);
  void **rest = take_all();
  is_refused(&all);
  drain_timers(&all.timers, started);
  free_all(rest);
  fill(&all);
  drain(&all);
  fill(&all);
  /* what is left is freed with the collections */
  CHECK(cordyceps_timers_free(&all.timers) && cordyceps_queue_free(&all.queue));
  CHECK(!is_pool_whole());
  CHECK(cordyceps_inbox_free(&all.inbox) && cordyceps_pile_free(&all.pile));
  CHECK(is_pool_whole());
  system_call(EXIT, 0, NULL, 0);
}
