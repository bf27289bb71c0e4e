/* An inbox in one thread: each answer, and no room is lost. */
#include "checked.h"

enum { ROOMS = 5 };

/* Sends until there is no room, and says how many payloads that were. */
static size_t fill(cordyceps_inbox *inbox) {
  size_t sent = 0;
  uint32_t answer;
  while ((answer = cordyceps_inbox_send(inbox, sent)) == CORDYCEPS_DONE)
    sent++;
  CHECK(answer == CORDYCEPS_FULL);
  return sent;
}

static size_t drain(cordyceps_inbox *inbox) {
  size_t received = 0;
  uint64_t payload;
  uint32_t answer;
  while ((answer = cordyceps_inbox_receive(inbox, &payload)) == CORDYCEPS_DONE)
    CHECK(payload == received++);
  CHECK(answer == CORDYCEPS_EMPTY);
  return received;
}

static void rooms(void) {
  cordyceps_inbox inbox = {0};
  CHECK(!cordyceps_inbox_new((size_t)1048576 + 1, &inbox) && !inbox.at);
  CHECK(cordyceps_inbox_new(0, &inbox) && fill(&inbox) == 0 && cordyceps_inbox_free(&inbox));
  CHECK(cordyceps_inbox_new(1048576, &inbox) && cordyceps_inbox_free(&inbox));
  CHECK(cordyceps_inbox_new(ROOMS, &inbox));
  for (int i = 0; i < 3; i++)
    CHECK(fill(&inbox) == ROOMS && drain(&inbox) == ROOMS);
  CHECK(fill(&inbox) == ROOMS);
  CHECK(cordyceps_inbox_free(&inbox) && !inbox.at);
}

static void rooms_of_handles(void) {
  cordyceps_inbox inbox = {0}, other = {0};
  CHECK(cordyceps_inbox_new(ROOMS, &inbox));
  CHECK(cordyceps_inbox_split(&inbox, &other));
  CHECK(cordyceps_inbox_send(&other, 0) == CORDYCEPS_FULL);
  CHECK(cordyceps_inbox_give_back(&inbox));
  CHECK(fill(&other) == ROOMS);
  CHECK(drain(&inbox) == ROOMS);
  /* the handle that received has given the rooms back, since it found nothing */
  CHECK(fill(&other) == ROOMS);
  for (uint64_t i = 0, payload; i < ROOMS; i++)
    CHECK(cordyceps_inbox_receive(&inbox, &payload) == CORDYCEPS_DONE && payload == i);
  /* it has them until then, and they come back too as it gives them, is absorbed or is freed */
  CHECK(fill(&other) == 0);
  CHECK(cordyceps_inbox_give_back(&inbox) && fill(&other) == ROOMS && drain(&other) == ROOMS);
  CHECK(cordyceps_inbox_absorb(&inbox, &other) && !other.at);
  CHECK(fill(&inbox) == ROOMS && drain(&inbox) == ROOMS);
  CHECK(cordyceps_inbox_split(&inbox, &other));
  CHECK(cordyceps_inbox_free(&inbox) && !inbox.at);
  CHECK(fill(&other) == ROOMS && cordyceps_inbox_free(&other) && !other.at);
}

/* A handle that receives keeps 16 rooms at most, also where it finds something each time. */
static void rooms_that_are_kept(void) {
  cordyceps_inbox inbox = {0}, other = {0};
  uint64_t payload;
  CHECK(cordyceps_inbox_new(64, &inbox) && cordyceps_inbox_split(&inbox, &other));
  CHECK(cordyceps_inbox_give_back(&inbox) && fill(&other) == 64);
  for (uint64_t i = 0; i < 16; i++)
    CHECK(cordyceps_inbox_receive(&inbox, &payload) == CORDYCEPS_DONE && payload == i);
  CHECK(fill(&other) == 0);
  CHECK(cordyceps_inbox_receive(&inbox, &payload) == CORDYCEPS_DONE && payload == 16);
  CHECK(fill(&other) == 17);
  CHECK(cordyceps_inbox_free(&other) && cordyceps_inbox_free(&inbox));
}

int main(void) {
  rooms();
  rooms_that_are_kept();
  rooms_of_handles();
  return 0;
}
