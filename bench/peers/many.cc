// Rows of nodes that are in two lists at once, by two hooks of one struct. The nodes are blocks of `malloc`, as the
// library's are.
#include "measure.h"

#include <new>
#include <sys/queue.h>

#ifdef WITH_BOOST
#include <boost/intrusive/list.hpp>
#endif

// The members of each pair of lists: `insert` puts a node last in list 0, and `link` last in list 1. `remove` takes it
// out of both, and `touch` moves it to the back of list 0.

#ifdef WITH_BOOST
namespace intrusive = boost::intrusive;

// Boost.Intrusive's lists, which know their lengths. With safe links, as they are unless one asks for others, a node
// knows whether it is in a list. Then it is asked where this library asks, or has the caller ask.
template <intrusive::link_mode_type mode>
struct BoostLists {
  using Hook = intrusive::list_member_hook<intrusive::link_mode<mode>>;

  struct Node {
    Hook in_0, in_1;
    uint64_t id, value;
  };

  template <Hook Node::*hook>
  using List = intrusive::list<Node, intrusive::member_hook<Node, Hook, hook>>;
  List<&Node::in_0> list_0;
  List<&Node::in_1> list_1;

  void insert(Node *it) { list_0.push_back(*it); }
  void link(Node *it) { list_1.push_back(*it); }
  void touch(Node *it) { list_0.splice(list_0.end(), list_0, list_0.iterator_to(*it)); }
  Node *first() { return list_0.empty() ? nullptr : &list_0.front(); }

  void unlink(Node *it) {
    if constexpr (mode == intrusive::safe_link) {
      if (!it->in_1.is_linked()) return;
    }
    list_1.erase(list_1.iterator_to(*it));
  }

  void remove(Node *it) {
    unlink(it);
    list_0.erase(list_0.iterator_to(*it));
  }

  template <class Visit>
  void walk_0(Visit visit) {
    for (const Node &it : list_0) visit(it.value);
  }

  template <class Visit>
  void walk_1(Visit visit) {
    for (const Node &it : list_1) visit(it.value);
  }
};
#endif

// The tail queues of BSD, which know no length.
struct TailLists {
  struct Node {
    TAILQ_ENTRY(Node) in_0, in_1;
    uint64_t id, value;
  };

  TAILQ_HEAD(Head, Node);
  Head list_0, list_1;

  TailLists() {
    TAILQ_INIT(&list_0);
    TAILQ_INIT(&list_1);
  }

  TailLists(const TailLists &) = delete;
  void insert(Node *it) { TAILQ_INSERT_TAIL(&list_0, it, in_0); }
  void link(Node *it) { TAILQ_INSERT_TAIL(&list_1, it, in_1); }
  void unlink(Node *it) { TAILQ_REMOVE(&list_1, it, in_1); }
  Node *first() { return TAILQ_FIRST(&list_0); }

  void touch(Node *it) {
    TAILQ_REMOVE(&list_0, it, in_0);
    TAILQ_INSERT_TAIL(&list_0, it, in_0);
  }

  void remove(Node *it) {
    unlink(it);
    TAILQ_REMOVE(&list_0, it, in_0);
  }

  template <class Visit>
  void walk_0(Visit visit) {
    Node *it;
    TAILQ_FOREACH(it, &list_0, in_0) visit(it->value);
  }

  template <class Visit>
  void walk_1(Visit visit) {
    Node *it;
    TAILQ_FOREACH(it, &list_1, in_1) visit(it->value);
  }
};

// A number over values and their order.
struct Digest {
  uint64_t sum = 0;

  void operator()(uint64_t value) { sum = sum * 31 + value; }
};

// The numbers below this one, in an order of no kind.
static vector<size_t> places_of(size_t count) {
  vector<size_t> places;
  for (size_t number = 0; number < count; number++) places.push_back(number);
  shuffle(places);
  return places;
}

template <class Node>
static vector<Node *> pick(const vector<Node *> &nodes, const vector<size_t> &places) {
  vector<Node *> picked;
  for (size_t place : places) picked.push_back(nodes[place]);
  return picked;
}

// Makes nodes, and puts each last in both lists.
template <class Lists, class Node = typename Lists::Node>
static vector<Node *> fill(Lists &lists, size_t count) {
  vector<Node *> nodes;
  nodes.reserve(count);
  for (size_t number = 0; number < count; number++) {
    void *room = std::malloc(sizeof(Node));
    if (room == nullptr) std::abort();
    Node *it = new (room) Node;
    it->id = number;
    it->value = mix(number);
    lists.insert(it);
    lists.link(it);
    nodes.push_back(it);
  }
  return nodes;
}

// Removes the first node of list 0 from both until none is left.
template <class Lists, class Node = typename Lists::Node>
static uint64_t remove_all(Lists &lists) {
  uint64_t sum = 0;
  while (Node *it = lists.first()) {
    lists.remove(it);
    sum += it->value;
    it->~Node();
    std::free(it);
  }
  return sum;
}

template <class Lists, class Node = typename Lists::Node>
static void touch_all(Lists &lists, const vector<Node *> &nodes) {
  for (Node *it : nodes) lists.touch(it);
}

// Lists of which list 1 is empty, and their nodes in two orders.
template <class Lists>
struct Ordered {
  using Node = typename Lists::Node;
  Lists lists;
  vector<Node *> first, second;

  explicit Ordered(size_t count) {
    vector<size_t> places = places_of(count);
    vector<Node *> nodes = fill(lists, count);
    first = pick(nodes, places);
    shuffle(places);
    second = pick(nodes, places);
    unlink();
  }

  ~Ordered() {
    link();
    remove_all(lists);
  }

  void link() {
    for (Node *it : first) lists.link(it);
  }

  void unlink() {
    for (Node *it : second) lists.unlink(it);
  }

  static uint64_t digest(const vector<Node *> &nodes) {
    Digest digest;
    for (Node *it : nodes) digest(it->value);
    return digest.sum;
  }
};

// All nodes are linked in list 1, and then unlinked in another order.
template <class Lists>
static Time link_unlink(size_t count, size_t rounds) {
  Ordered<Lists> ordered(count);
  Time time;
  for (size_t round = 0; round < rounds; round++) {
    time += timed(count, [&] {
      ordered.link();
      ordered.unlink();
    });
  }
  Digest left, linked;
  ordered.lists.walk_1([&](uint64_t value) { left(value); });
  expect(left.sum, 0);
  ordered.link();
  ordered.lists.walk_1([&](uint64_t value) { linked(value); });
  expect(linked.sum, ordered.digest(ordered.first));
  ordered.unlink();
  return time;
}

// All nodes move to the back of list 0, in one order and then in another.
template <class Lists>
static Time move_to_back(size_t count, size_t rounds) {
  Ordered<Lists> ordered(count);
  Time time;
  for (size_t round = 0; round < rounds; round++) {
    time += timed(2.0 * count, [&] {
      touch_all(ordered.lists, ordered.first);
      touch_all(ordered.lists, ordered.second);
    });
  }
  Digest moved;
  ordered.lists.walk_0([&](uint64_t value) { moved(value); });
  expect(moved.sum, ordered.digest(ordered.second));
  return time;
}

// Nodes are made, and put last in both lists. Later they are removed and freed, in another order.
template <class Lists>
static Time make(size_t count, size_t rounds) {
  vector<size_t> places = places_of(count);
  shuffle(places);
  uint64_t expected = 0;
  for (size_t number = 0; number < count; number++) expected += mix(number);
  Time time;
  for (size_t round = 0; round < rounds; round++) {
    Lists lists;
    vector<typename Lists::Node *> nodes;
    uint64_t sum = 0;
    time += timed(count, [&] { nodes = fill(lists, count); });
    touch_all(lists, pick(nodes, places));
    // (the operations were counted above)
    time += timed(0, [&] { sum = remove_all(lists); });
    expect(sum, expected);
  }
  return time;
}

template <class Lists>
static void add_lists_of(const char *peer) {
  one_thread[{"two lists, link", peer}] = link_unlink<Lists>;
  one_thread[{"two lists, move", peer}] = move_to_back<Lists>;
  one_thread[{"two lists, make", peer}] = make<Lists>;
}

void add_many() {
  add_lists_of<TailLists>("TAILQ");
#ifdef WITH_BOOST
  add_lists_of<BoostLists<intrusive::normal_link>>("Boost list");
  add_lists_of<BoostLists<intrusive::safe_link>>("Boost list, safe links");
#endif
}
