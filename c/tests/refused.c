/* Memory is refused at each request in turn: each call answers so, and nothing is lost. */
#include "checked.h"
#include "cordyceps_heap.h"

/* How many requests are granted before one is refused; a negative number is for all. */
static long granted = -1;

static bool is_refused(void) {
  if (granted == 0) {
    granted = -1;
    return true;
  }
  granted -= granted > 0;
  return false;
}

void *cordyceps_malloc(size_t bytes) { return is_refused() ? NULL : malloc(bytes); }

void *cordyceps_realloc(void *block, size_t bytes) { return is_refused() ? NULL : realloc(block, bytes); }

void cordyceps_free(void *block) { free(block); }

/* Refuses the n-th request of what follows, and grants the others. */
static void refuse(long n) { granted = n; }

/* Whether nothing was refused meanwhile; grants all from now on. */
static bool was_granted(void) {
  bool is = granted >= 0;
  granted = -1;
  return is;
}

static void timers_refused(void) {
  cordyceps_timers timers = {0};
  cordyceps_ticket ticket = {1, 2, 3};
  cordyceps_fired fired;
  refuse(0);
  CHECK(!cordyceps_timers_new(0, &timers) && !timers.at && !was_granted());
  CHECK(cordyceps_timers_new(0, &timers));
  /* the table of tickets, and the node */
  for (long n = 0; n < 2; n++) {
    refuse(n);
    CHECK(!cordyceps_timers_start(&timers, 1, 2, &ticket) && !was_granted());
    CHECK(cordyceps_timers_len(&timers) == 0 && ticket.number == 3);
  }
  refuse(1);
  CHECK(cordyceps_timers_start(&timers, 1, 2, &ticket) && was_granted());
  CHECK(cordyceps_timers_len(&timers) == 1 && ticket.number == 1);
  refuse(0);
  CHECK(cordyceps_timers_restart(&timers, ticket, 3) && cordyceps_timers_stop(&timers, ticket, &fired));
  CHECK(fired.deadline == 3 && fired.payload == 2 && was_granted());
  CHECK(cordyceps_timers_start(&timers, 1, 4, &ticket));
  refuse(0);
  cordyceps_spot spot = {NULL};
  CHECK(!cordyceps_timers_start_unchecked(&timers, 1, 5, &spot) && !spot.at && !was_granted());
  refuse(0);
  CHECK(cordyceps_timers_pop_due(&timers, 1, &fired) && fired.payload == 4);
  CHECK(cordyceps_timers_free(&timers) && was_granted());
}

static void queue_refused(void) {
  cordyceps_queue queue = {0};
  cordyceps_ticket ticket = {1, 2, 3};
  cordyceps_item item;
  refuse(0);
  CHECK(!cordyceps_queue_new(0, &queue) && !queue.at && !was_granted());
  CHECK(cordyceps_queue_new(0, &queue));
  for (long n = 0; n < 2; n++) {
    refuse(n);
    CHECK(!cordyceps_queue_push(&queue, 1, 2, &ticket) && !was_granted());
    CHECK(cordyceps_queue_len(&queue) == 0 && ticket.number == 3);
  }
  cordyceps_spot spot = {NULL};
  refuse(0);
  CHECK(!cordyceps_queue_push_unchecked(&queue, 1, 3, &spot) && !spot.at && !was_granted());
  CHECK(cordyceps_queue_push(&queue, 1, 2, &ticket) && ticket.number == 1);
  refuse(0);
  CHECK(cordyceps_queue_change(&queue, ticket, 9) && cordyceps_queue_front(&queue, &item) && item.key == 9);
  CHECK(cordyceps_queue_pop(&queue, &item) && item.payload == 2);
  CHECK(cordyceps_queue_free(&queue) && was_granted());
}

static void list_refused(void) {
  cordyceps_list list = {0};
  cordyceps_ticket at = {1, 2, 3}, out = {4, 5, 6};
  uint64_t payload = 0;
  refuse(0);
  CHECK(!cordyceps_list_new(1, &list) && !list.at && !was_granted());
  CHECK(cordyceps_list_new(1, &list));
  /* the first element takes a block of slots and a node */
  for (long n = 0; n < 2; n++) {
    refuse(n);
    CHECK(!cordyceps_list_push_front(&list, 1, &out) && out.number == 6 && !was_granted());
    CHECK(cordyceps_list_len(&list) == 0);
  }
  refuse(2);
  CHECK(cordyceps_list_push_back(&list, 1, &at) && at.number == 1 && was_granted());
  refuse(0);
  CHECK(!cordyceps_list_insert_after(&list, at, 2, &out) && out.number == 6 && !was_granted());
  CHECK(cordyceps_list_push_front(&list, 2, &out) && out.number == 2);
  /* what moves or ends asks for nothing */
  refuse(0);
  CHECK(cordyceps_list_move_to_front(&list, at) && cordyceps_list_move_after(&list, at, out));
  CHECK(cordyceps_list_remove(&list, at, &payload) && payload == 1);
  CHECK(cordyceps_list_pop_back(&list, &payload) && payload == 2);
  CHECK(cordyceps_list_free(&list) && was_granted());
}

static void inbox_refused(void) {
  cordyceps_inbox inbox = {0}, other = {0};
  uint64_t payload = 0;
  long requests = 0;
  for (;; requests++) {
    refuse(requests);
    bool is_made = cordyceps_inbox_new(3, &inbox);
    if (was_granted() && is_made)
      break;
    CHECK(!is_made && !inbox.at);
  }
  CHECK(requests == 6);
  refuse(0);
  CHECK(!cordyceps_inbox_split(&inbox, &other) && !other.at && !was_granted());
  refuse(0);
  CHECK(cordyceps_inbox_send(&inbox, 1) == CORDYCEPS_NO_MEMORY && !was_granted());
  CHECK(cordyceps_inbox_receive(&inbox, &payload) == CORDYCEPS_EMPTY && payload == 0);
  /* no room was lost */
  for (uint64_t i = 0; i < 3; i++)
    CHECK(cordyceps_inbox_send(&inbox, i) == CORDYCEPS_DONE);
  CHECK(cordyceps_inbox_send(&inbox, 3) == CORDYCEPS_FULL);
  CHECK(cordyceps_inbox_split(&inbox, &other));
  refuse(0);
  CHECK(cordyceps_inbox_receive(&other, &payload) == CORDYCEPS_DONE && payload == 0);
  CHECK(cordyceps_inbox_give_back(&other));
  CHECK(cordyceps_inbox_absorb(&inbox, &other));
  CHECK(cordyceps_inbox_free(&inbox) && was_granted());
}

static void pile_refused(void) {
  cordyceps_pile pile = {0}, other = {0};
  uint64_t payload = 0;
  long requests = 0;
  for (;; requests++) {
    refuse(requests);
    bool is_made = cordyceps_pile_new(3, &pile);
    if (was_granted() && is_made)
      break;
    CHECK(!is_made && !pile.at);
  }
  CHECK(requests == 5);
  refuse(0);
  CHECK(!cordyceps_pile_split(&pile, &other) && !other.at && !was_granted());
  refuse(0);
  CHECK(cordyceps_pile_push(&pile, 1) == CORDYCEPS_NO_MEMORY && !was_granted());
  CHECK(!cordyceps_pile_pop(&pile, &payload) && payload == 0);
  /* no room was lost */
  for (uint64_t i = 0; i < 3; i++)
    CHECK(cordyceps_pile_push(&pile, i) == CORDYCEPS_DONE);
  CHECK(cordyceps_pile_push(&pile, 3) == CORDYCEPS_FULL);
  CHECK(cordyceps_pile_split(&pile, &other));
  refuse(0);
  for (uint64_t i = 3; i-- > 0;)
    CHECK(cordyceps_pile_pop(&other, &payload) && payload == i);
  CHECK(cordyceps_pile_give_back(&other));
  CHECK(cordyceps_pile_absorb(&pile, &other));
  CHECK(cordyceps_pile_free(&pile) && was_granted());
}

/* Lists and queues of nodes are one block each, and what is done with nodes asks for nothing. */
static void nodes_refused(void) {
  cordyceps_node_list list = {NULL};
  cordyceps_node_queue queue = {NULL};
  cordyceps_inbox inbox = {0};
  cordyceps_pile pile = {0};
  cordyceps_links links = CORDYCEPS_LINKS_INIT;
  cordyceps_node node = {&links};
  cordyceps_spot spot;
  refuse(0);
  CHECK(!cordyceps_node_list_new(&list) && !list.at && !was_granted());
  refuse(0);
  CHECK(!cordyceps_node_queue_new(&queue) && !queue.at && !was_granted());
  refuse(1);
  CHECK(cordyceps_node_list_new(&list) && was_granted());
  refuse(1);
  CHECK(cordyceps_node_queue_new(&queue) && was_granted());
  CHECK(cordyceps_inbox_new(1, &inbox) && cordyceps_pile_new(1, &pile));
  refuse(0);
  cordyceps_node_list_push_back(&list, &node, &spot);
  CHECK(cordyceps_node_list_pop_front(&list, &node) && node.at == &links);
  cordyceps_node_queue_push(&queue, &node, &spot);
  CHECK(cordyceps_node_queue_pop(&queue, &node) && node.at == &links);
  CHECK(cordyceps_inbox_send_node(&inbox, &node) == CORDYCEPS_DONE && !node.at);
  CHECK(cordyceps_inbox_receive_node(&inbox, &node) == CORDYCEPS_DONE && node.at == &links);
  CHECK(cordyceps_pile_push_node(&pile, &node) == CORDYCEPS_DONE && !node.at);
  CHECK(cordyceps_pile_pop_node(&pile, &node) && node.at == &links);
  CHECK(cordyceps_node_list_free(&list) && cordyceps_node_queue_free(&queue));
  CHECK(cordyceps_inbox_free(&inbox) && cordyceps_pile_free(&pile) && was_granted());
}

int main(void) {
  timers_refused();
  queue_refused();
  list_refused();
  inbox_refused();
  pile_refused();
  nodes_refused();
  return 0;
}
