// Lists: the library's by its calls for C, and what a C or C++ engineer would use in their place.
//
// Each has the same members. `push_back` returns the name of what went in: `remove` takes it out by that, and
// `move_to_back` moves it. `sum` walks the list.
#ifndef BESIDE_LINKED_H
#define BESIDE_LINKED_H

#include "measure.h"
#include "ordered.h"

#include <sys/queue.h>

#ifdef WITH_BOOST
#include <boost/intrusive/list.hpp>
#endif

// The library's list. Its names are tickets.
struct LibraryList {
  using Name = cordyceps_ticket;
  cordyceps_list list = {};

  explicit LibraryList(size_t) { require(cordyceps_list_new(1, &list)); }
  void move_to_back(Name name) { require(cordyceps_list_move_to_back(&list, name)); }

  Name push_back(uint64_t payload) {
    Name name;
    require(cordyceps_list_push_back(&list, payload, &name));
    return name;
  }

  uint64_t pop_front() {
    uint64_t payload;
    require(cordyceps_list_pop_front(&list, &payload));
    return payload;
  }

  uint64_t remove(Name name) {
    uint64_t payload;
    require(cordyceps_list_remove(&list, name, &payload));
    return payload;
  }

  uint64_t sum() {
    uint64_t sum = 0, payload;
    Name at;
    for (bool is_there = cordyceps_list_front(&list, &at); is_there; is_there = cordyceps_list_next(&list, at, &at)) {
      require(cordyceps_list_get(&list, at, &payload));
      sum += payload;
    }
    return sum;
  }
};

// The library's list of structs that are its nodes. Its names are spots, which are the addresses of links.
struct OwnList {
  using Name = cordyceps_spot;
  cordyceps_node_list_memory memory = CORDYCEPS_NODE_LIST_INIT;
  cordyceps_node_list list = {&memory};
  Waiting<OwnNode> nodes;

  explicit OwnList(size_t count) : nodes(count) {}
  uint64_t pop_front() { return ended(nodes, cordyceps_node_list_take_first(&list)); }
  uint64_t remove(Name name) { return ended(nodes, cordyceps_node_list_take_at(&list, name)); }
  void move_to_back(Name name) { cordyceps_node_list_move_to_back(&list, name); }

  Name push_back(uint64_t payload) {
    OwnNode *it = nodes.make();
    it->payload = payload;
    return cordyceps_node_list_add_last(&list, &it->links);
  }

  uint64_t sum() {
    uint64_t sum = 0;
    Name at;
    for (bool is_there = cordyceps_node_list_front(&list, &at); is_there;
         is_there = cordyceps_node_list_next(&list, at, &at))
      sum += cordyceps_container(at.at, OwnNode, links)->payload;
    return sum;
  }
};

struct TailNode {
  TAILQ_ENTRY(TailNode) links;
  uint64_t payload;
};

// A list of the C library's sys/queue.h. Its names are its nodes.
template <template <class> class Nodes>
struct TailList {
  using Name = TailNode *;
  Nodes<TailNode> nodes;
  TAILQ_HEAD(, TailNode) list;

  explicit TailList(size_t count) : nodes(count) { TAILQ_INIT(&list); }
  uint64_t pop_front() { return remove(TAILQ_FIRST(&list)); }

  Name push_back(uint64_t payload) {
    Name it = nodes.make();
    it->payload = payload;
    TAILQ_INSERT_TAIL(&list, it, links);
    return it;
  }

  uint64_t remove(Name it) {
    TAILQ_REMOVE(&list, it, links);
    uint64_t payload = it->payload;
    nodes.end(it);
    return payload;
  }

  void move_to_back(Name it) {
    TAILQ_REMOVE(&list, it, links);
    TAILQ_INSERT_TAIL(&list, it, links);
  }

  uint64_t sum() {
    uint64_t sum = 0;
    Name it;
    TAILQ_FOREACH(it, &list, links) sum += it->payload;
    return sum;
  }
};

struct RingNode {
  RingNode *next, *prev;
  uint64_t payload;
};

// A ring of links whose head is no element, as Linux has it. It knows no length. Its names are its nodes.
struct RingList {
  using Name = RingNode *;
  Waiting<RingNode> nodes;
  RingNode head = {&head, &head, 0};

  explicit RingList(size_t count) : nodes(count) {}
  uint64_t pop_front() { return remove(head.next); }

  Name push_back(uint64_t payload) {
    Name it = nodes.make();
    it->payload = payload;
    link_last(it);
    return it;
  }

  uint64_t remove(Name it) {
    unlink(it);
    uint64_t payload = it->payload;
    nodes.end(it);
    return payload;
  }

  void move_to_back(Name it) {
    unlink(it);
    link_last(it);
  }

  uint64_t sum() {
    uint64_t sum = 0;
    for (Name it = head.next; it != &head; it = it->next) sum += it->payload;
    return sum;
  }

 private:
  void link_last(Name it) {
    it->next = &head;
    it->prev = head.prev;
    head.prev->next = it;
    head.prev = it;
  }

  static void unlink(Name it) {
    it->prev->next = it->next;
    it->next->prev = it->prev;
  }
};

#ifdef WITH_BOOST
using ListHook = boost::intrusive::list_base_hook<boost::intrusive::link_mode<boost::intrusive::normal_link>>;

struct BoostNode : ListHook {
  uint64_t payload;
};

// Boost.Intrusive's list, which knows its length. Its names are its nodes.
struct BoostList {
  using Name = BoostNode *;
  Waiting<BoostNode> nodes;
  boost::intrusive::list<BoostNode> list;

  explicit BoostList(size_t count) : nodes(count) {}
  ~BoostList() { list.clear(); }
  uint64_t pop_front() { return remove(&list.front()); }
  void move_to_back(Name it) { list.splice(list.end(), list, list.iterator_to(*it)); }

  Name push_back(uint64_t payload) {
    Name it = nodes.make();
    it->payload = payload;
    list.push_back(*it);
    return it;
  }

  uint64_t remove(Name it) {
    list.erase(list.iterator_to(*it));
    uint64_t payload = it->payload;
    nodes.end(it);
    return payload;
  }

  uint64_t sum() {
    uint64_t sum = 0;
    for (const BoostNode &it : list) sum += it.payload;
    return sum;
  }
};
#endif

#endif
