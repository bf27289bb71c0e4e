/* Each call on the handle of nothing answers, and changes nothing; so does each one that would fill a handle twice. */
#include "checked.h"

static void timers_of_nothing(void) {
  cordyceps_timers timers = {0};
  cordyceps_ticket ticket = {1, 2, 3};
  cordyceps_fired fired = {7, 8};
  cordyceps_spot spot = {NULL};
  uint64_t until = 9;
  CHECK(!cordyceps_timers_start_unchecked(&timers, 1, 2, &spot) && !spot.at);
  CHECK(!cordyceps_timers_stop_unchecked(&timers, spot, &fired));
  CHECK(!cordyceps_timers_restart_unchecked(&timers, spot, 1));
  CHECK(!cordyceps_timers_start(&timers, 1, 2, &ticket));
  CHECK(ticket.collection == 1 && ticket.slot == 2 && ticket.number == 3);
  CHECK(!cordyceps_timers_stop(&timers, ticket, &fired) && !cordyceps_timers_restart(&timers, ticket, 1));
  CHECK(!cordyceps_timers_not_before(&timers, &until) && until == 9);
  CHECK(!cordyceps_timers_pop_due(&timers, UINT64_MAX, &fired));
  CHECK(fired.deadline == 7 && fired.payload == 8);
  CHECK(cordyceps_timers_len(&timers) == 0);
  CHECK(!cordyceps_timers_free(&timers));
  CHECK(!timers.at);
}

static void timers_made_twice(void) {
  cordyceps_timers timers = {0};
  cordyceps_ticket ticket;
  CHECK(cordyceps_timers_new(0, &timers));
  CHECK(cordyceps_timers_start(&timers, 1, 2, &ticket));
  void *at = timers.at;
  CHECK(!cordyceps_timers_new(0, &timers));
  CHECK(timers.at == at && cordyceps_timers_len(&timers) == 1);
  CHECK(cordyceps_timers_free(&timers));
  CHECK(!timers.at);
  CHECK(!cordyceps_timers_free(&timers));
}

static void queue_of_nothing(void) {
  cordyceps_queue queue = {0};
  cordyceps_ticket ticket = {1, 2, 3};
  cordyceps_item item = {7, 8};
  cordyceps_spot spot = {NULL};
  CHECK(!cordyceps_queue_push_unchecked(&queue, 1, 2, &spot) && !spot.at);
  CHECK(!cordyceps_queue_remove_unchecked(&queue, spot, &item) && !cordyceps_queue_change_unchecked(&queue, spot, 1));
  CHECK(!cordyceps_queue_push(&queue, 1, 2, &ticket));
  CHECK(ticket.collection == 1 && ticket.slot == 2 && ticket.number == 3);
  CHECK(!cordyceps_queue_pop(&queue, &item) && !cordyceps_queue_front(&queue, &item));
  CHECK(!cordyceps_queue_remove(&queue, ticket, &item) && !cordyceps_queue_change(&queue, ticket, 1));
  CHECK(item.key == 7 && item.payload == 8);
  CHECK(cordyceps_queue_len(&queue) == 0 && !cordyceps_queue_free(&queue) && !queue.at);
}

static void queue_made_twice(void) {
  cordyceps_queue queue = {0};
  cordyceps_ticket ticket;
  CHECK(cordyceps_queue_new(0, &queue) && cordyceps_queue_push(&queue, 1, 2, &ticket));
  void *at = queue.at;
  CHECK(!cordyceps_queue_new(0, &queue) && queue.at == at && cordyceps_queue_len(&queue) == 1);
  CHECK(cordyceps_queue_free(&queue) && !queue.at && !cordyceps_queue_free(&queue));
}

static void list_of_nothing(void) {
  cordyceps_list list = {0};
  cordyceps_ticket at = {1, 2, 3}, out = {4, 5, 6};
  uint64_t payload = 7;
  CHECK(!cordyceps_list_push_front(&list, 1, &out) && !cordyceps_list_push_back(&list, 1, &out));
  CHECK(!cordyceps_list_insert_before(&list, at, 1, &out) && !cordyceps_list_insert_after(&list, at, 1, &out));
  CHECK(!cordyceps_list_pop_front(&list, &payload) && !cordyceps_list_pop_back(&list, &payload));
  CHECK(!cordyceps_list_remove(&list, at, &payload) && !cordyceps_list_get(&list, at, &payload));
  CHECK(!cordyceps_list_front(&list, &out) && !cordyceps_list_back(&list, &out));
  CHECK(!cordyceps_list_next(&list, at, &out) && !cordyceps_list_prev(&list, at, &out));
  CHECK(!cordyceps_list_move_to_front(&list, at) && !cordyceps_list_move_to_back(&list, at));
  CHECK(!cordyceps_list_move_after(&list, at, out));
  CHECK(cordyceps_list_len(&list) == 0 && !cordyceps_list_free(&list) && !list.at);
  CHECK(payload == 7 && out.collection == 4 && out.slot == 5 && out.number == 6);
}

static void list_made_twice(void) {
  cordyceps_list list = {0};
  cordyceps_ticket at;
  CHECK(cordyceps_list_new(1, &list) && cordyceps_list_push_back(&list, 5, &at));
  void *there = list.at;
  CHECK(!cordyceps_list_new(2, &list));
  CHECK(list.at == there && cordyceps_list_len(&list) == 1 && at.collection == 1);
  CHECK(cordyceps_list_free(&list) && !list.at && !cordyceps_list_free(&list));
}

static void inbox_of_nothing(void) {
  cordyceps_inbox inbox = {0}, other = {0};
  uint64_t payload = 7;
  CHECK(!cordyceps_inbox_split(&inbox, &other));
  CHECK(cordyceps_inbox_send(&inbox, 1) == CORDYCEPS_NOTHING);
  CHECK(cordyceps_inbox_receive(&inbox, &payload) == CORDYCEPS_NOTHING);
  CHECK(payload == 7);
  CHECK(!cordyceps_inbox_absorb(&inbox, &other));
  CHECK(!cordyceps_inbox_give_back(&inbox));
  CHECK(!cordyceps_inbox_free(&inbox));
  CHECK(!inbox.at && !other.at);
}

static void inbox_made_twice(void) {
  cordyceps_inbox inbox = {0}, other = {0}, nothing = {0};
  uint64_t payload = 7;
  CHECK(cordyceps_inbox_new(1, &inbox));
  CHECK(cordyceps_inbox_new(1, &other));
  void *at = inbox.at;
  CHECK(!cordyceps_inbox_new(1, &inbox));
  CHECK(!cordyceps_inbox_split(&other, &inbox));
  CHECK(!cordyceps_inbox_absorb(&inbox, &nothing));
  CHECK(!cordyceps_inbox_absorb(&nothing, &inbox));
  CHECK(inbox.at == at && other.at && !nothing.at);
  CHECK(cordyceps_inbox_send(&inbox, 5) == CORDYCEPS_DONE);
  CHECK(cordyceps_inbox_receive(&other, &payload) == CORDYCEPS_EMPTY);
  CHECK(cordyceps_inbox_free(&inbox) && cordyceps_inbox_free(&other));
  CHECK(!inbox.at && !other.at);
  CHECK(!cordyceps_inbox_free(&inbox) && !inbox.at);
}

static void pile_of_nothing(void) {
  cordyceps_pile pile = {0}, other = {0};
  uint64_t payload = 7;
  CHECK(!cordyceps_pile_split(&pile, &other));
  CHECK(cordyceps_pile_push(&pile, 1) == CORDYCEPS_NOTHING);
  CHECK(!cordyceps_pile_pop(&pile, &payload) && payload == 7);
  CHECK(!cordyceps_pile_absorb(&pile, &other));
  CHECK(!cordyceps_pile_give_back(&pile));
  CHECK(!cordyceps_pile_free(&pile));
  CHECK(!pile.at && !other.at);
}

static void pile_made_twice(void) {
  cordyceps_pile pile = {0}, other = {0}, nothing = {0};
  uint64_t payload = 7;
  CHECK(cordyceps_pile_new(1, &pile));
  CHECK(cordyceps_pile_new(1, &other));
  void *at = pile.at;
  CHECK(!cordyceps_pile_new(1, &pile));
  CHECK(!cordyceps_pile_split(&other, &pile));
  CHECK(!cordyceps_pile_absorb(&pile, &nothing));
  CHECK(!cordyceps_pile_absorb(&nothing, &pile));
  CHECK(pile.at == at && other.at && !nothing.at);
  CHECK(cordyceps_pile_push(&pile, 5) == CORDYCEPS_DONE);
  CHECK(!cordyceps_pile_pop(&other, &payload) && payload == 7);
  CHECK(cordyceps_pile_free(&pile) && cordyceps_pile_free(&other));
  CHECK(!pile.at && !other.at);
  CHECK(!cordyceps_pile_free(&pile) && !pile.at);
}

static void nodes_of_nothing(void) {
  cordyceps_node node = {NULL};
  cordyceps_node_list list = {NULL};
  cordyceps_node_queue queue = {NULL};
  cordyceps_node_free(&node);
  CHECK(!cordyceps_node_list_free(&list) && !cordyceps_node_queue_free(&queue));
  CHECK(!node.at && !list.at && !queue.at);
}

static void nodes_freed_twice(void) {
  cordyceps_links links = CORDYCEPS_LINKS_INIT;
  cordyceps_node own = {&links}, made = {NULL};
  cordyceps_inbox inbox = {0};
  cordyceps_node_free(&own);
  CHECK(!own.at);
  cordyceps_node_free(&own);
  CHECK(!own.at);
  CHECK(cordyceps_inbox_new(1, &inbox) && cordyceps_inbox_send(&inbox, 5) == CORDYCEPS_DONE);
  CHECK(cordyceps_inbox_receive_node(&inbox, &made) == CORDYCEPS_DONE && made.at && made.at->value == 5);
  cordyceps_node_free(&made);
  CHECK(!made.at);
  cordyceps_node_free(&made);
  CHECK(!made.at && cordyceps_inbox_free(&inbox));
}

static void node_lists_freed_twice(void) {
  cordyceps_node_list_memory memory = CORDYCEPS_NODE_LIST_INIT;
  cordyceps_node_list own = {&memory}, made = {NULL};
  CHECK(cordyceps_node_list_free(&own) && !own.at && !cordyceps_node_list_free(&own) && !own.at);
  CHECK(cordyceps_node_list_new(&made) && made.at);
  CHECK(cordyceps_node_list_free(&made) && !made.at && !cordyceps_node_list_free(&made) && !made.at);
}

static void node_queues_freed_twice(void) {
  cordyceps_node_queue_memory memory = CORDYCEPS_NODE_QUEUE_INIT;
  cordyceps_node_queue own = {&memory}, made = {NULL};
  CHECK(cordyceps_node_queue_free(&own) && !own.at && !cordyceps_node_queue_free(&own) && !own.at);
  CHECK(cordyceps_node_queue_new(&made) && made.at);
  CHECK(cordyceps_node_queue_free(&made) && !made.at && !cordyceps_node_queue_free(&made) && !made.at);
}

int main(void) {
  timers_of_nothing();
  timers_made_twice();
  queue_of_nothing();
  queue_made_twice();
  list_of_nothing();
  list_made_twice();
  inbox_of_nothing();
  inbox_made_twice();
  pile_of_nothing();
  pile_made_twice();
  nodes_of_nothing();
  nodes_freed_twice();
  node_lists_freed_twice();
  node_queues_freed_twice();
  return 0;
}
