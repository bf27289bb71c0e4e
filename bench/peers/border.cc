// Rows of the calls of the library for C, and of what a C or C++ engineer would use in their place.
//
// A call of the library takes its memory within the time that is measured. So do the peers, one block for each element,
// except in the rows of nodes that are there. The first round of a row, which is not counted, fetches the memory from
// the system, and `keep_memory` keeps it.
#include "linked.h"
#include "measure.h"
#include "ordered.h"
#include "peers.h"

#include <malloc.h>

#include <mutex>

// Keys that are as good as drawn from the numbers below 2 to the 32, others at each time.
struct Keys {
  vector<uint64_t> drawn;
  uint64_t number = 0;

  explicit Keys(size_t count) : drawn(count) {}

  void draw() {
    for (uint64_t &it : drawn) it = mix(number++) >> 32;
  }
};

// The sum of the payloads, which are the numbers below a count.
static uint64_t sum_below(uint64_t count) {
  return count * (count - 1) / 2;
}

// Measures rounds. The first is not counted.
template <class Round>
static Time measured(size_t rounds, Round round) {
  Time time;
  round();
  for (size_t number = 0; number < rounds; number++) time += round();
  return time;
}

// Elements with drawn keys in a collection, and their names, by which they are met in no order.
template <class Of>
struct Named {
  size_t count;
  Of of;
  Keys keys;
  vector<typename Of::Name> names;

  explicit Named(size_t count) : count(count), of(count), keys(count), names(count) {}

  Time push_all() {
    keys.draw();
    Time time = timed(count, [&] {
      for (size_t number = 0; number < count; number++) names[number] = of.push(keys.drawn[number], number);
    });
    shuffle(names);
    return time;
  }

  Time remove_all() {
    uint64_t sum = 0;
    Time time = timed(count, [&] {
      for (auto &it : names) sum += of.remove(it).payload;
    });
    expect(sum, sum_below(count));
    return time;
  }
};

// Takes all out, each of which has to have no less a key than the one before. Adds up their payloads.
template <class Of>
static uint64_t pop_all(Of &of, size_t count, uint64_t &last) {
  uint64_t sum = 0;
  bool is_ordered = true;
  for (size_t number = 0; number < count; number++) {
    Item it = of.pop();
    is_ordered &= last <= it.key;
    last = it.key;
    sum += it.payload;
  }
  require(is_ordered);
  return sum;
}

// All go in, and then all come out in the order of their keys.
template <class Of>
static Time in_order(size_t count, size_t rounds) {
  Of of(count);
  Keys keys(count);
  uint64_t last = 0;
  return measured(rounds, [&] {
    keys.draw();
    uint64_t sum = 0, base = last;
    Time time = timed(2.0 * count, [&] {
      for (size_t number = 0; number < count; number++) of.push(base + keys.drawn[number], number);
      sum = pop_all(of, count, last);
    });
    expect(sum, sum_below(count));
    return time;
  });
}

// The first comes out, and goes in again with a key that is no less.
template <class Of>
static Time by_turns(size_t count, size_t rounds) {
  Of of(count);
  Keys keys(count);
  keys.draw();
  for (size_t number = 0; number < count; number++) of.push(keys.drawn[number], number);
  Time time = measured(rounds, [&] {
    keys.draw();
    return timed(2.0 * count, [&] {
      for (uint64_t key : keys.drawn) {
        Item it = of.pop();
        of.push(it.key + key, it.payload);
      }
    });
  });
  uint64_t last = 0;
  expect(pop_all(of, count, last), sum_below(count));
  return time;
}

// All go in, and then all come out by their names, in no order.
template <class Of>
static Time by_name(size_t count, size_t rounds) {
  Named<Of> named(count);
  return measured(rounds, [&] {
    Time time = named.push_all();
    time += named.remove_all();
    return time;
  });
}

// Each gets another key, by its name.
template <class Of>
static Time change(size_t count, size_t rounds) {
  Named<Of> named(count);
  named.push_all();
  Time time = measured(rounds, [&] {
    named.keys.draw();
    return timed(count, [&] {
      for (size_t number = 0; number < count; number++) named.of.change(named.names[number], named.keys.drawn[number]);
    });
  });
  named.remove_all();
  return time;
}

// How many there are is asked for so many times, which the compiler may not make one.
template <class Of>
static Time length(size_t count, size_t rounds) {
  Named<Of> named(count);
  named.push_all();
  return measured(rounds, [&] {
    uint64_t sum = 0;
    Time time = timed(count, [&] {
      for (size_t number = 0; number < count; number++) {
        sum += named.of.len();
        asm volatile("" ::: "memory");
      }
    });
    expect(sum, uint64_t(count) * count);
    return time;
  });
}

// A removal is asked for by the names of elements that are out, where others came in their places.
template <class Of>
static Time refuse(size_t count, size_t rounds) {
  Named<Of> named(count);
  named.push_all();
  auto stale = named.names;
  named.remove_all();
  named.push_all();
  return measured(rounds, [&] {
    uint64_t refused = 0;
    Time time = timed(count, [&] {
      for (auto &name : stale) refused += named.of.refuses(name);
    });
    expect(refused, count);
    return time;
  });
}

// The library's inbox, of one handle.
struct LibraryInbox {
  cordyceps_inbox inbox = {};

  explicit LibraryInbox(size_t count) { require(cordyceps_inbox_new(count, &inbox)); }
  void put(uint64_t payload) { require(cordyceps_inbox_send(&inbox, payload) == CORDYCEPS_DONE); }

  uint64_t take() {
    uint64_t payload;
    require(cordyceps_inbox_receive(&inbox, &payload) == CORDYCEPS_DONE);
    return payload;
  }
};

// The library's inbox of structs that are its nodes, of one handle.
struct OwnInbox {
  cordyceps_inbox inbox = {};
  Waiting<OwnNode> nodes;

  explicit OwnInbox(size_t count) : nodes(count) { require(cordyceps_inbox_new(count, &inbox)); }

  void put(uint64_t payload) {
    OwnNode *it = nodes.make();
    cordyceps_node node = {&it->links};
    it->payload = payload;
    require(cordyceps_inbox_send_node(&inbox, &node) == CORDYCEPS_DONE);
  }

  uint64_t take() {
    cordyceps_node node = {nullptr};
    require(cordyceps_inbox_receive_node(&inbox, &node) == CORDYCEPS_DONE);
    return ended(nodes, node.at);
  }
};

#ifdef WITH_URCU
// A letter begins with the pointer that is its node.
struct Letter {
  void *node;
  uint64_t payload;
};

// liburcu's queue of letters, by one of the calls that take a node out.
template <auto take_one, template <class> class Nodes>
struct Letters {
  Nodes<Letter> letters;
  void *queue = wfqueue_make();

  explicit Letters(size_t count) : letters(count) {}

  void put(uint64_t payload) {
    Letter *it = letters.make();
    it->payload = payload;
    wfqueue_put(queue, it);
  }

  uint64_t take() {
    auto it = static_cast<Letter *>(take_one(queue));
    require(it != nullptr);
    uint64_t payload = it->payload;
    letters.end(it);
    return payload;
  }
};
#endif

// An array behind a lock, in which the payloads go round.
struct LockedRing {
  alignas(128) std::mutex mutex;
  vector<uint64_t> payloads;
  size_t first = 0, count = 0;

  explicit LockedRing(size_t count) : payloads(count) {}

  void put(uint64_t payload) {
    std::lock_guard<std::mutex> lock(mutex);
    require(count < payloads.size());
    size_t at = first + count++;
    payloads[at < payloads.size() ? at : at - payloads.size()] = payload;
  }

  uint64_t take() {
    std::lock_guard<std::mutex> lock(mutex);
    require(count > 0);
    uint64_t payload = payloads[first++];
    if (first == payloads.size()) first = 0;
    count--;
    return payload;
  }
};

// All go in at the back, and then all come out at the front.
template <class List>
static Time list_ends(size_t count, size_t rounds) {
  List list(count);
  return measured(rounds, [&] {
    uint64_t sum = 0;
    Time time = timed(2.0 * count, [&] {
      for (size_t number = 0; number < count; number++) list.push_back(number);
      for (size_t number = 0; number < count; number++) sum += list.pop_front();
    });
    expect(sum, sum_below(count));
    return time;
  });
}

// All go in at the back, and then all come out by their names, in no order.
template <class List>
static Time list_by_name(size_t count, size_t rounds) {
  List list(count);
  vector<typename List::Name> names(count);
  return measured(rounds, [&] {
    uint64_t sum = 0;
    Time time = timed(count, [&] {
      for (size_t number = 0; number < count; number++) names[number] = list.push_back(number);
    });
    shuffle(names);
    time += timed(count, [&] {
      for (auto &name : names) sum += list.remove(name);
    });
    expect(sum, sum_below(count));
    return time;
  });
}

// Each goes to the back by its name, in no order.
template <class List>
static Time list_moved(size_t count, size_t rounds) {
  List list(count);
  vector<typename List::Name> names;
  for (size_t number = 0; number < count; number++) names.push_back(list.push_back(number));
  shuffle(names);
  Time time = measured(rounds, [&] {
    return timed(count, [&] {
      for (auto &name : names) list.move_to_back(name);
    });
  });
  expect(list.sum(), sum_below(count));
  return time;
}

// All are read, from the front on, in the order in which their nodes were made.
template <class List>
static Time list_walk(size_t count, size_t rounds) {
  List list(count);
  for (size_t number = 0; number < count; number++) list.push_back(number);
  return measured(rounds, [&] {
    uint64_t sum = 0;
    Time time = timed(count, [&] { sum = list.sum(); });
    expect(sum, sum_below(count));
    return time;
  });
}

template <class List>
static void add_list(const char *peer) {
  one_thread[{"list ends", peer}] = list_ends<List>;
  one_thread[{"list by name", peer}] = list_by_name<List>;
}

// What needs no node.
template <class List>
static void add_linked(const char *peer) {
  one_thread[{"list moved", peer}] = list_moved<List>;
  one_thread[{"list walk", peer}] = list_walk<List>;
}

// Of a peer whose nodes the caller has.
template <class List>
static void add_held_list(const char *peer) {
  one_thread[{"list ends, held", peer}] = list_ends<List>;
  one_thread[{"list by name, held", peer}] = list_by_name<List>;
}

// All payloads are sent, so many at a time, and received.
template <class Inbox>
static Time send(size_t count, size_t at_a_time, size_t rounds) {
  Inbox inbox(at_a_time);
  return measured(rounds, [&] {
    uint64_t sum = 0;
    Time time = timed(2.0 * count, [&] {
      for (size_t sent = 0; sent < count; sent += at_a_time) {
        for (size_t number = 0; number < at_a_time; number++) inbox.put(sent + number);
        for (size_t number = 0; number < at_a_time; number++) sum += inbox.take();
      }
    });
    expect(sum, sum_below(count));
    return time;
  });
}

template <class Inbox>
static void add_inbox(const char *peer, const char *held = "") {
  std::string is_held = held;
  one_thread[{"send all" + is_held, peer}] = [](size_t count, size_t rounds) {
    return send<Inbox>(count, count, rounds);
  };
  one_thread[{"send one" + is_held, peer}] = [](size_t count, size_t rounds) { return send<Inbox>(count, 1, rounds); };
}

template <class Of>
static void add_ordered(const char *peer) {
  one_thread[{"in order", peer}] = in_order<Of>;
  one_thread[{"by turns", peer}] = by_turns<Of>;
  one_thread[{"length", peer}] = length<Of>;
}

template <class Of>
static void add_named(const char *peer) {
  add_ordered<Of>(peer);
  one_thread[{"by name", peer}] = by_name<Of>;
  one_thread[{"change", peer}] = change<Of>;
}

// Of a peer whose nodes the caller has.
template <class Of>
static void add_held(const char *peer) {
  one_thread[{"in order, held", peer}] = in_order<Of>;
  one_thread[{"by turns, held", peer}] = by_turns<Of>;
  one_thread[{"by name, held", peer}] = by_name<Of>;
}

// Memory that was freed stays with the process, which else might fetch it from the system in each round.
static void keep_memory() {
  mallopt(M_MMAP_MAX, 0);
  mallopt(M_TRIM_THRESHOLD, -1);
}

void add_border() {
  keep_memory();
  add_named<CheckedTimers>("cordyceps_timers");
  add_named<UncheckedTimers>("cordyceps_timers, unchecked");
  add_named<CheckedQueue>("cordyceps_queue");
  add_named<UncheckedQueue>("cordyceps_queue, unchecked");
  one_thread[{"refuse", "cordyceps_timers"}] = refuse<CheckedTimers>;
  one_thread[{"refuse", "cordyceps_queue"}] = refuse<CheckedQueue>;
  add_named<Heap<Allocated>>("4-ary heap");
  add_held<Heap<Waiting>>("4-ary heap");
  add_named<StandardTree>("std::multimap");
  add_ordered<StandardHeap>("std::priority_queue");
  add_held<OwnQueue>("cordyceps_node_queue");
  one_thread[{"change", "cordyceps_node_queue"}] = change<OwnQueue>;
  one_thread[{"length", "cordyceps_node_queue"}] = length<OwnQueue>;
  add_list<LibraryList>("cordyceps_list");
  add_linked<LibraryList>("cordyceps_list");
  add_held_list<OwnList>("cordyceps_node_list");
  add_linked<OwnList>("cordyceps_node_list");
  add_list<TailList<Allocated>>("TAILQ");
  add_held_list<TailList<Waiting>>("TAILQ");
  add_linked<TailList<Waiting>>("TAILQ");
  add_held_list<RingList>("list_head");
  add_linked<RingList>("list_head");
  add_inbox<LibraryInbox>("cordyceps_inbox");
  add_inbox<OwnInbox>("cordyceps_inbox, nodes", ", held");
  add_inbox<LockedRing>("mutex, ring");
#ifdef WITH_BOOST
  add_named<Tree<Allocated>>("Boost multiset");
  add_held<Tree<Waiting>>("Boost multiset");
  add_held_list<BoostList>("Boost list");
  add_linked<BoostList>("Boost list");
#endif
#ifdef WITH_URCU
  add_inbox<Letters<wfqueue_take, Allocated>>("wfcqueue");
  add_inbox<Letters<wfqueue_take, Waiting>>("wfcqueue", ", held");
  add_inbox<Letters<wfqueue_take_by_lock, Allocated>>("wfcqueue with its lock");
  add_inbox<Letters<wfqueue_take_by_lock, Waiting>>("wfcqueue with its lock", ", held");
#endif
}
