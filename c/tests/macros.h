/* Uses each macro of the headers and each inline function, so that each compiler reads them, as C and as C++. */
#ifndef MACROS_H
#define MACROS_H

#include "cordyceps.h"
#include "cordyceps_heap.h"
#include "cordyceps_waker.h"

static inline bool is_armed_once(cordyceps_waker *waker) {
  cordyceps_waker_arm(waker);
  return cordyceps_waker_disarm(waker) && !cordyceps_waker_disarm(waker);
}

struct embedding {
  int number;
  cordyceps_links links;
};

static inline int number_of_only(int number) {
  struct embedding only = {number, CORDYCEPS_LINKS_INIT};
  cordyceps_node_list_memory list_memory = CORDYCEPS_NODE_LIST_INIT;
  cordyceps_node_queue_memory queue_memory = CORDYCEPS_NODE_QUEUE_INIT;
  cordyceps_node_list list = {&list_memory};
  cordyceps_node_queue queue = {&queue_memory};
  cordyceps_links *first;
  cordyceps_node_list_add_last(&list, &only.links);
  cordyceps_node_queue_add(&queue, cordyceps_node_list_take_first(&list), 1);
  first = cordyceps_node_queue_take_first(&queue);
  return first ? cordyceps_container(first, struct embedding, links)->number : 0;
}

#endif
