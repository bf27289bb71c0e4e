/* A pile in one thread: each answer, the order of the payloads, and no room is lost. */
#include "checked.h"

enum { ROOMS = 5 };

/* Pushes until there is no room, and says how many payloads that were. */
static size_t fill(cordyceps_pile *pile) {
  size_t pushed = 0;
  uint32_t answer;
  while ((answer = cordyceps_pile_push(pile, pushed)) == CORDYCEPS_DONE)
    pushed++;
  CHECK(answer == CORDYCEPS_FULL);
  return pushed;
}

/* Pops so many payloads, the last pushed first, and says how many that were. */
static size_t drain(cordyceps_pile *pile, size_t pushed) {
  size_t popped = 0;
  uint64_t payload;
  while (cordyceps_pile_pop(pile, &payload))
    CHECK(payload == pushed - ++popped);
  return popped;
}

static void rooms(void) {
  cordyceps_pile pile = {0};
  CHECK(!cordyceps_pile_new((size_t)1048576 + 1, &pile) && !pile.at);
  CHECK(cordyceps_pile_new(0, &pile) && fill(&pile) == 0 && cordyceps_pile_free(&pile));
  CHECK(cordyceps_pile_new(1048576, &pile) && cordyceps_pile_free(&pile));
  CHECK(cordyceps_pile_new(ROOMS, &pile));
  for (int i = 0; i < 3; i++)
    CHECK(fill(&pile) == ROOMS && drain(&pile, ROOMS) == ROOMS);
  CHECK(fill(&pile) == ROOMS);
  CHECK(cordyceps_pile_free(&pile) && !pile.at);
}

/* What comes later waits until all that was taken is handed out. */
static void order(void) {
  cordyceps_pile pile = {0};
  uint64_t payload = 7;
  CHECK(cordyceps_pile_new(ROOMS, &pile));
  CHECK(!cordyceps_pile_pop(&pile, &payload) && payload == 7);
  for (uint64_t i = 1; i <= 3; i++)
    CHECK(cordyceps_pile_push(&pile, i) == CORDYCEPS_DONE);
  CHECK(cordyceps_pile_pop(&pile, &payload) && payload == 3);
  CHECK(cordyceps_pile_push(&pile, 4) == CORDYCEPS_DONE);
  CHECK(cordyceps_pile_push(&pile, UINT64_MAX) == CORDYCEPS_DONE);
  CHECK(cordyceps_pile_pop(&pile, &payload) && payload == 2);
  CHECK(cordyceps_pile_pop(&pile, &payload) && payload == 1);
  CHECK(cordyceps_pile_pop(&pile, &payload) && payload == UINT64_MAX);
  /* the one that is left is freed with the handle, and so is the one in the pile */
  CHECK(cordyceps_pile_push(&pile, 5) == CORDYCEPS_DONE);
  CHECK(cordyceps_pile_free(&pile) && !pile.at);
}

static void rooms_of_handles(void) {
  cordyceps_pile pile = {0}, other = {0};
  CHECK(cordyceps_pile_new(ROOMS, &pile));
  CHECK(cordyceps_pile_split(&pile, &other));
  CHECK(cordyceps_pile_push(&other, 0) == CORDYCEPS_FULL);
  CHECK(cordyceps_pile_give_back(&pile));
  CHECK(fill(&other) == ROOMS);
  CHECK(drain(&pile, ROOMS) == ROOMS);
  /* the rooms are with the handle that took, and come back as it gives them, is absorbed or is freed */
  CHECK(fill(&other) == 0);
  CHECK(cordyceps_pile_give_back(&pile) && fill(&other) == ROOMS && drain(&other, ROOMS) == ROOMS);
  CHECK(cordyceps_pile_absorb(&pile, &other) && !other.at);
  CHECK(fill(&pile) == ROOMS && drain(&pile, ROOMS) == ROOMS);
  CHECK(cordyceps_pile_split(&pile, &other));
  CHECK(cordyceps_pile_free(&pile) && !pile.at);
  CHECK(fill(&other) == ROOMS && cordyceps_pile_free(&other) && !other.at);
}

/* A handle is not absorbed while it has payloads that it took. */
static void taken_by_the_other(void) {
  cordyceps_pile pile = {0}, other = {0};
  uint64_t payload;
  CHECK(cordyceps_pile_new(ROOMS, &pile) && cordyceps_pile_split(&pile, &other));
  CHECK(cordyceps_pile_push(&pile, 1) == CORDYCEPS_DONE && cordyceps_pile_push(&pile, 2) == CORDYCEPS_DONE);
  CHECK(cordyceps_pile_pop(&other, &payload) && payload == 2);
  void *at = other.at;
  CHECK(!cordyceps_pile_absorb(&pile, &other) && other.at == at && pile.at);
  CHECK(!cordyceps_pile_pop(&pile, &payload));
  CHECK(cordyceps_pile_pop(&other, &payload) && payload == 1);
  CHECK(cordyceps_pile_absorb(&pile, &other) && !other.at);
  CHECK(fill(&pile) == ROOMS && drain(&pile, ROOMS) == ROOMS);
  CHECK(cordyceps_pile_free(&pile));
}

int main(void) {
  rooms();
  order();
  rooms_of_handles();
  taken_by_the_other();
  return 0;
}
