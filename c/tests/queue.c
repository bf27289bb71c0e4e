/* Items come out by their keys, and equals as they were pushed; tickets reach those in the queue, and no others. */
#include "checked.h"

static void each_answer(void) {
  cordyceps_queue queue = {0};
  cordyceps_ticket a, b, c, none = {0};
  cordyceps_item item = {7, 8};
  CHECK(cordyceps_queue_new(9, &queue) && queue.at && cordyceps_queue_len(&queue) == 0);
  CHECK(!cordyceps_queue_pop(&queue, &item) && !cordyceps_queue_front(&queue, &item));
  CHECK(item.key == 7 && item.payload == 8);
  CHECK(cordyceps_queue_push(&queue, 5, 1, &a) && cordyceps_queue_push(&queue, 3, 2, &b));
  CHECK(cordyceps_queue_push(&queue, 3, 3, &c) && cordyceps_queue_len(&queue) == 3);
  CHECK(a.collection == 9 && a.number == 1 && b.number == 2 && c.number == 3);
  CHECK(cordyceps_queue_front(&queue, &item) && item.key == 3 && item.payload == 2);
  CHECK(cordyceps_queue_pop(&queue, &item) && item.key == 3 && item.payload == 2);
  CHECK(!cordyceps_queue_remove(&queue, b, &item) && !cordyceps_queue_change(&queue, b, 0));
  CHECK(!cordyceps_queue_remove(&queue, none, &item));
  CHECK(cordyceps_queue_change(&queue, c, 6) && cordyceps_queue_front(&queue, &item) && item.key == 5);
  CHECK(cordyceps_queue_change(&queue, c, 5));
  CHECK(cordyceps_queue_pop(&queue, &item) && item.payload == 1);
  CHECK(cordyceps_queue_remove(&queue, c, &item) && item.key == 5 && item.payload == 3);
  CHECK(!cordyceps_queue_remove(&queue, c, &item) && cordyceps_queue_len(&queue) == 0);
  CHECK(cordyceps_queue_push(&queue, UINT64_MAX, UINT64_MAX, &a) && a.slot == c.slot && a.number == 4);
  CHECK(!cordyceps_queue_remove(&queue, c, &item));
  CHECK(cordyceps_queue_free(&queue) && !queue.at);
}

static void ticket_of_another(void) {
  cordyceps_queue own = {0}, other = {0};
  cordyceps_ticket ticket, theirs;
  cordyceps_item item;
  CHECK(cordyceps_queue_new(1, &own) && cordyceps_queue_new(2, &other));
  CHECK(cordyceps_queue_push(&own, 1, 1, &ticket) && cordyceps_queue_push(&other, 1, 1, &theirs));
  CHECK(!cordyceps_queue_remove(&own, theirs, &item) && !cordyceps_queue_change(&other, ticket, 2));
  CHECK(cordyceps_queue_remove(&own, ticket, &item) && cordyceps_queue_remove(&other, theirs, &item));
  CHECK(cordyceps_queue_free(&other) && cordyceps_queue_free(&own));
}

static void by_spot(void) {
  cordyceps_queue queue = {0};
  cordyceps_spot first, second;
  cordyceps_ticket ticket;
  cordyceps_item item;
  CHECK(cordyceps_queue_new(0, &queue));
  CHECK(cordyceps_queue_push_unchecked(&queue, 1, 1, &first) && cordyceps_queue_push_unchecked(&queue, 2, 2, &second));
  CHECK(cordyceps_queue_push(&queue, 3, 3, &ticket) && ticket.number == 1);
  CHECK(cordyceps_queue_change_unchecked(&queue, first, 4) && cordyceps_queue_len(&queue) == 3);
  CHECK(cordyceps_queue_remove_unchecked(&queue, second, &item) && item.key == 2 && item.payload == 2);
  CHECK(cordyceps_queue_pop(&queue, &item) && item.key == 3 && item.payload == 3);
  CHECK(cordyceps_queue_pop(&queue, &item) && item.key == 4 && item.payload == 1);
  CHECK(!cordyceps_queue_remove(&queue, ticket, &item) && cordyceps_queue_len(&queue) == 0);
  CHECK(cordyceps_queue_free(&queue));
}

enum { WAITING = 64 };

/* Calls by chance, beside an array that is searched. */
static void beside_an_array(size_t calls) {
  struct item { cordyceps_ticket ticket; uint64_t key, order; bool waits; } all[WAITING] = {0};
  cordyceps_queue queue = {0};
  cordyceps_item item;
  uint64_t order = 0;
  size_t len = 0;
  CHECK(cordyceps_queue_new(3, &queue));
  srand(3);
  for (size_t i = 0; i < calls; i++) {
    struct item *it = &all[rand() % WAITING], *first = NULL;
    uint64_t key = (uint64_t)(rand() % 50);
    for (struct item *x = all; x < all + WAITING; x++)
      if (x->waits && (!first || x->key < first->key || (x->key == first->key && x->order < first->order)))
        first = x;
    switch (rand() % 5) {
    case 0:
      if (it->waits)
        break;
      CHECK(cordyceps_queue_push(&queue, key, (uint64_t)(it - all), &it->ticket));
      it->key = key, it->order = ++order, it->waits = true, len++;
      break;
    case 1:
      CHECK(cordyceps_queue_remove(&queue, it->ticket, &item) == it->waits);
      CHECK(!it->waits || (item.key == it->key && item.payload == (uint64_t)(it - all)));
      len -= it->waits;
      it->waits = false;
      break;
    case 2:
      CHECK(cordyceps_queue_change(&queue, it->ticket, key) == it->waits);
      it->key = key, it->order = ++order;
      break;
    case 3:
      CHECK(cordyceps_queue_front(&queue, &item) == (first != NULL));
      CHECK(!first || (item.key == first->key && item.payload == (uint64_t)(first - all)));
      break;
    default:
      CHECK(cordyceps_queue_pop(&queue, &item) == (first != NULL));
      if (first) {
        CHECK(item.key == first->key && item.payload == (uint64_t)(first - all));
        first->waits = false, len--;
      }
    }
    CHECK(cordyceps_queue_len(&queue) == len);
  }
  CHECK(cordyceps_queue_free(&queue));
}

/* The argument says how many calls by chance are made. */
int main(int argc, char **argv) {
  each_answer();
  ticket_of_another();
  by_spot();
  beside_an_array(argc > 1 ? strtoul(argv[1], NULL, 10) : 1000000);
  return 0;
}
