/* Threads send to one receiver: each payload comes once, and those of a thread in its order. Threads push onto a pile,
 * from which one takes: each payload comes once, and of those taken at once the ones of a thread in reverse order. */
#include <pthread.h>
#include <sched.h>

#include "checked.h"

enum { SENDERS = 4, ROOMS = 64 };

struct sender {
  cordyceps_inbox inbox;
  uint64_t number;
  uint64_t count;
};

static void *send_all(void *given) {
  struct sender *it = given;
  for (uint64_t i = 0; i < it->count; i++) {
    uint32_t answer;
    while ((answer = cordyceps_inbox_send(&it->inbox, it->number << 32 | i)) != CORDYCEPS_DONE) {
      CHECK(answer == CORDYCEPS_FULL);
      sched_yield();
    }
  }
  while (!cordyceps_inbox_give_back(&it->inbox))
    sched_yield();
  return NULL;
}

/* Receives what all send, and gives the rooms back. */
static void receive_all(cordyceps_inbox *inbox, uint64_t count) {
  uint64_t next[SENDERS] = {0}, payload, received = 0;
  while (received < SENDERS * count) {
    uint32_t answer = cordyceps_inbox_receive(inbox, &payload);
    if (answer == CORDYCEPS_DONE) {
      CHECK(payload >> 32 < SENDERS && next[payload >> 32]++ == (payload & UINT32_MAX));
      received++;
    } else {
      CHECK(answer == CORDYCEPS_EMPTY || answer == CORDYCEPS_UNLINKED);
      sched_yield();
    }
    if (answer != CORDYCEPS_DONE || received % 16 == 0)
      cordyceps_inbox_give_back(inbox);
  }
}

static void inbox_of_threads(uint64_t count) {
  uint64_t payload;
  cordyceps_inbox inbox = {0};
  struct sender senders[SENDERS];
  pthread_t threads[SENDERS];
  CHECK(cordyceps_inbox_new(ROOMS, &inbox));
  for (uint64_t i = 0; i < SENDERS; i++) {
    senders[i] = (struct sender){{0}, i, count};
    CHECK(cordyceps_inbox_split(&inbox, &senders[i].inbox));
  }
  CHECK(cordyceps_inbox_give_back(&inbox));
  for (uint64_t i = 0; i < SENDERS; i++)
    CHECK(!pthread_create(&threads[i], NULL, send_all, &senders[i]));
  receive_all(&inbox, count);
  for (uint64_t i = 0; i < SENDERS; i++) {
    CHECK(!pthread_join(threads[i], NULL));
    CHECK(i % 2 ? cordyceps_inbox_free(&senders[i].inbox) : cordyceps_inbox_absorb(&inbox, &senders[i].inbox));
  }
  CHECK(cordyceps_inbox_receive(&inbox, &payload) == CORDYCEPS_EMPTY);
  for (int i = 0; i < ROOMS; i++)
    CHECK(cordyceps_inbox_send(&inbox, 0) == CORDYCEPS_DONE);
  CHECK(cordyceps_inbox_send(&inbox, 0) == CORDYCEPS_FULL);
  CHECK(cordyceps_inbox_free(&inbox));
}

struct pusher {
  cordyceps_pile pile;
  uint64_t number;
  uint64_t count;
};

static void *push_all(void *given) {
  struct pusher *it = given;
  for (uint64_t i = 0; i < it->count; i++) {
    uint32_t answer;
    while ((answer = cordyceps_pile_push(&it->pile, it->number << 32 | i)) != CORDYCEPS_DONE) {
      CHECK(answer == CORDYCEPS_FULL || answer == CORDYCEPS_BUSY);
      sched_yield();
    }
  }
  while (!cordyceps_pile_give_back(&it->pile))
    sched_yield();
  return NULL;
}

/* What came of one thread: all before `low`, and of those that were taken at once the ones from `at` to `top`. */
struct came {
  uint64_t low, at, top;
};

static void comes(struct came *it, uint64_t payload) {
  if (it->at == it->low) {
    CHECK(payload >= it->top);
    *it = (struct came){it->top, payload, payload + 1};
  } else {
    CHECK(payload == --it->at);
  }
}

/* Takes what all push, and gives the rooms back. */
static void take_all(cordyceps_pile *pile, uint64_t count) {
  struct came came[SENDERS] = {{0, 0, 0}};
  uint64_t payload, popped = 0;
  while (popped < SENDERS * count) {
    bool is_popped = cordyceps_pile_pop(pile, &payload);
    if (is_popped) {
      CHECK(payload >> 32 < SENDERS);
      comes(&came[payload >> 32], payload & UINT32_MAX);
      popped++;
    } else {
      sched_yield();
    }
    if (!is_popped || popped % 16 == 0)
      cordyceps_pile_give_back(pile);
  }
  for (int i = 0; i < SENDERS; i++)
    CHECK(came[i].at == came[i].low && came[i].top == count);
}

static void pile_of_threads(uint64_t count) {
  uint64_t payload;
  cordyceps_pile pile = {0};
  struct pusher pushers[SENDERS];
  pthread_t threads[SENDERS];
  CHECK(cordyceps_pile_new(ROOMS, &pile));
  for (uint64_t i = 0; i < SENDERS; i++) {
    pushers[i] = (struct pusher){{0}, i, count};
    CHECK(cordyceps_pile_split(&pile, &pushers[i].pile));
  }
  CHECK(cordyceps_pile_give_back(&pile));
  for (uint64_t i = 0; i < SENDERS; i++)
    CHECK(!pthread_create(&threads[i], NULL, push_all, &pushers[i]));
  take_all(&pile, count);
  for (uint64_t i = 0; i < SENDERS; i++) {
    CHECK(!pthread_join(threads[i], NULL));
    CHECK(i % 2 ? cordyceps_pile_free(&pushers[i].pile) : cordyceps_pile_absorb(&pile, &pushers[i].pile));
  }
  CHECK(!cordyceps_pile_pop(&pile, &payload));
  for (int i = 0; i < ROOMS; i++)
    CHECK(cordyceps_pile_push(&pile, 0) == CORDYCEPS_DONE);
  CHECK(cordyceps_pile_push(&pile, 0) == CORDYCEPS_FULL);
  CHECK(cordyceps_pile_free(&pile));
}

int main(int argc, char **argv) {
  uint64_t count = argc > 1 ? strtoull(argv[1], NULL, 10) : 20000;
  inbox_of_threads(count);
  pile_of_threads(count);
  return 0;
}
