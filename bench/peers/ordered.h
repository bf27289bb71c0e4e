// Timers and priority queues: the library's by its calls for C, and what a C or C++ engineer would use in their place.
//
// Each has the same members. `push` returns the name of what went in: `remove` takes it out by that, and `change` gives
// it another key. `pop` takes out one of the least key.
#ifndef BESIDE_ORDERED_H
#define BESIDE_ORDERED_H

#include "measure.h"

#include <algorithm>
#include <new>
#include <queue>

#include "cordyceps.h"

#ifdef WITH_BOOST
#include <boost/intrusive/set.hpp>
#endif

// What came out.
struct Item {
  uint64_t key, payload;
};

// Ends the program where a call fails that must not.
inline void require(bool is_so) {
  if (!is_so) {
    std::fputs("beside: a call failed\n", stderr);
    std::exit(1);
  }
}

inline Item item_of(const cordyceps_fired &it) {
  return {it.deadline, it.payload};
}

inline Item item_of(const cordyceps_item &it) {
  return {it.key, it.payload};
}

// The library's timers or its priority queue, by its calls.
template <class Handle, class Out, class Ticket, auto make, auto put, auto take, auto give, auto take_first, auto count>
struct Library {
  using Name = Ticket;
  Handle handle = {};

  explicit Library(size_t) { require(make(1, &handle)); }
  size_t len() { return count(&handle); }
  void change(Name name, uint64_t key) { require(give(&handle, name, key)); }

  Name push(uint64_t key, uint64_t payload) {
    Name name;
    require(put(&handle, key, payload, &name));
    return name;
  }

  Item pop() {
    Out it;
    require(take_first(&handle, &it));
    return item_of(it);
  }

  Item remove(Name name) {
    Out it;
    require(take(&handle, name, &it));
    return item_of(it);
  }

  bool refuses(Name name) {
    Out it;
    return !take(&handle, name, &it);
  }
};

inline bool pop_any(cordyceps_timers *timers, cordyceps_fired *out) {
  return cordyceps_timers_pop_due(timers, UINT64_MAX, out);
}

template <class Ticket, auto start, auto stop, auto restart>
using Timers = Library<cordyceps_timers, cordyceps_fired, Ticket, cordyceps_timers_new, start, stop, restart, pop_any,
                       cordyceps_timers_len>;
template <class Ticket, auto push, auto remove, auto change>
using Queue = Library<cordyceps_queue, cordyceps_item, Ticket, cordyceps_queue_new, push, remove, change,
                      cordyceps_queue_pop, cordyceps_queue_len>;

// By tickets, which are checked, and by spots, which are not.
using CheckedTimers =
    Timers<cordyceps_ticket, cordyceps_timers_start, cordyceps_timers_stop, cordyceps_timers_restart>;
using UncheckedTimers = Timers<cordyceps_spot, cordyceps_timers_start_unchecked, cordyceps_timers_stop_unchecked,
                               cordyceps_timers_restart_unchecked>;
using CheckedQueue = Queue<cordyceps_ticket, cordyceps_queue_push, cordyceps_queue_remove, cordyceps_queue_change>;
using UncheckedQueue = Queue<cordyceps_spot, cordyceps_queue_push_unchecked, cordyceps_queue_remove_unchecked,
                             cordyceps_queue_change_unchecked>;

// Nodes that are allocated one by one.
template <class Node>
struct Allocated {
  explicit Allocated(size_t) {}

  Node *make() {
    void *memory = std::malloc(sizeof(Node));
    require(memory != nullptr);
    return new (memory) Node;
  }

  void end(Node *it) { std::free(it); }
};

// Nodes that the caller has. Those that are in no collection wait in a vector.
template <class Node>
struct Waiting {
  vector<std::unique_ptr<Node>> owned;
  vector<Node *> waiting;

  explicit Waiting(size_t count) {
    waiting.reserve(count);
    for (size_t number = 0; number < count; number++) {
      owned.push_back(std::make_unique<Node>());
      waiting.push_back(owned.back().get());
    }
  }

  Node *make() {
    Node *it = waiting.back();
    waiting.pop_back();
    return it;
  }

  void end(Node *it) { waiting.push_back(it); }
};

// A struct that is its own node in the library's lists, priority queues and inboxes.
struct OwnNode {
  cordyceps_links links = CORDYCEPS_LINKS_INIT;
  uint64_t payload;
};

// The payload of a struct that came out, and now waits.
inline uint64_t ended(Waiting<OwnNode> &nodes, cordyceps_links *links) {
  require(links != nullptr);
  OwnNode *it = cordyceps_container(links, OwnNode, links);
  nodes.end(it);
  return it->payload;
}

// The library's priority queue of structs that are its nodes. Its names are spots.
struct OwnQueue {
  using Name = cordyceps_spot;
  cordyceps_node_queue_memory memory = CORDYCEPS_NODE_QUEUE_INIT;
  cordyceps_node_queue queue = {&memory};
  Waiting<OwnNode> nodes;

  explicit OwnQueue(size_t count) : nodes(count) {}
  size_t len() { return cordyceps_node_queue_len(&queue); }
  void change(Name name, uint64_t key) { cordyceps_node_queue_change(&queue, name, key); }
  Item pop() { return item(cordyceps_node_queue_take_first(&queue)); }
  Item remove(Name name) { return item(cordyceps_node_queue_take_at(&queue, name)); }

  Name push(uint64_t key, uint64_t payload) {
    OwnNode *it = nodes.make();
    it->payload = payload;
    return cordyceps_node_queue_add(&queue, &it->links, key);
  }

 private:
  Item item(cordyceps_links *links) {
    uint64_t payload = ended(nodes, links);
    return {links->value, payload};
  }
};

// A node of a heap knows its place there.
struct HeapNode {
  size_t place;
  uint64_t payload;
};

// A heap with four children to a node, as libev has it: an array of keys and of pointers to nodes.
template <template <class> class Nodes>
struct Heap {
  using Name = HeapNode *;
  struct Entry {
    uint64_t key;
    HeapNode *node;
  };
  vector<Entry> entries;
  Nodes<HeapNode> nodes;

  explicit Heap(size_t count) : nodes(count) {}
  size_t len() { return entries.size(); }
  Item pop() { return take(0); }
  Item remove(Name name) { return take(name->place); }
  void change(Name name, uint64_t key) { settle(name->place, {key, name}); }

  Name push(uint64_t key, uint64_t payload) {
    HeapNode *node = nodes.make();
    node->payload = payload;
    entries.push_back({key, node});
    rise(entries.size() - 1, {key, node});
    return node;
  }

 private:
  void put(size_t at, Entry it) {
    entries[at] = it;
    it.node->place = at;
  }

  void rise(size_t at, Entry it) {
    while (at > 0 && it.key < entries[(at - 1) / 4].key) {
      put(at, entries[(at - 1) / 4]);
      at = (at - 1) / 4;
    }
    put(at, it);
  }

  // The least of up to four children, the first of which is there.
  size_t least_of(size_t first) {
    if (first + 3 < entries.size()) {
      size_t one = first + (entries[first + 1].key < entries[first].key);
      size_t other = first + 2 + (entries[first + 3].key < entries[first + 2].key);
      return entries[other].key < entries[one].key ? other : one;
    }
    size_t least = first;
    for (size_t at = first + 1; at < entries.size(); at++) {
      if (entries[at].key < entries[least].key) least = at;
    }
    return least;
  }

  void sink(size_t at, Entry it) {
    while (4 * at + 1 < entries.size()) {
      size_t least = least_of(4 * at + 1);
      if (it.key <= entries[least].key) break;
      put(at, entries[least]);
      at = least;
    }
    put(at, it);
  }

  // Puts an entry where there is none, or one that is to go.
  void settle(size_t at, Entry it) {
    bool is_before = at > 0 && it.key < entries[(at - 1) / 4].key;
    is_before ? rise(at, it) : sink(at, it);
  }

  Item take(size_t at) {
    Entry it = entries[at], last = entries.back();
    entries.pop_back();
    if (at < entries.size()) settle(at, last);
    Item item = {it.key, it.node->payload};
    nodes.end(it.node);
    return item;
  }
};

#ifdef WITH_BOOST
using TreeHook = boost::intrusive::set_base_hook<boost::intrusive::link_mode<boost::intrusive::normal_link>,
                                                 boost::intrusive::optimize_size<true>>;

struct TreeNode : TreeHook {
  uint64_t key, payload;

  bool operator<(const TreeNode &other) const { return key < other.key; }
};

// Boost.Intrusive's ordered tree.
template <template <class> class Nodes>
struct Tree {
  using Name = TreeNode *;
  boost::intrusive::multiset<TreeNode> set;
  Nodes<TreeNode> nodes;

  explicit Tree(size_t count) : nodes(count) {}
  ~Tree() { set.clear(); }
  size_t len() { return set.size(); }
  Item pop() { return remove(&*set.begin()); }

  Name push(uint64_t key, uint64_t payload) {
    TreeNode *node = nodes.make();
    node->key = key;
    node->payload = payload;
    set.insert(*node);
    return node;
  }

  Item remove(Name name) {
    Item item = {name->key, name->payload};
    set.erase(set.iterator_to(*name));
    nodes.end(name);
    return item;
  }

  void change(Name name, uint64_t key) {
    set.erase(set.iterator_to(*name));
    name->key = key;
    set.insert(*name);
  }
};
#endif

// The standard library's ordered tree, which allocates its nodes.
struct StandardTree {
  using Map = std::multimap<uint64_t, uint64_t>;
  using Name = Map::iterator;
  Map map;

  explicit StandardTree(size_t) {}
  size_t len() { return map.size(); }
  Name push(uint64_t key, uint64_t payload) { return map.emplace(key, payload); }
  Item pop() { return remove(map.begin()); }

  Item remove(Name name) {
    Item item = {name->first, name->second};
    map.erase(name);
    return item;
  }

  void change(Name name, uint64_t key) {
    auto node = map.extract(name);
    node.key() = key;
    map.insert(std::move(node));
  }
};

// The standard library's heap: an array of keys and payloads, which have no names.
struct StandardHeap {
  struct Name {};
  using Pair = std::pair<uint64_t, uint64_t>;
  std::priority_queue<Pair, vector<Pair>, std::greater<Pair>> heap;

  explicit StandardHeap(size_t) {}
  size_t len() { return heap.size(); }

  Name push(uint64_t key, uint64_t payload) {
    heap.emplace(key, payload);
    return {};
  }

  Item pop() {
    Pair first = heap.top();
    heap.pop();
    return {first.first, first.second};
  }
};

#endif
