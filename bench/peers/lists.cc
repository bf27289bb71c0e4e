// Rows of lists, and of an ordered tree beside sorted lists.
#include "measure.h"

#include <algorithm>
#include <sys/queue.h>

#ifdef WITH_BOOST
#include <boost/intrusive/list.hpp>
#include <boost/intrusive/set.hpp>
#endif

#ifdef WITH_BOOST
namespace intrusive = boost::intrusive;
using Hook = intrusive::link_mode<intrusive::normal_link>;

struct BoostElement : intrusive::list_base_hook<Hook> {
  uint64_t id, value;
};

// Boost.Intrusive's list, which knows its length, as the library's list does.
struct BoostList {
  using Element = BoostElement;
  using Place = intrusive::list<Element>::iterator;
  intrusive::list<Element> list;

  bool is_empty() { return list.empty(); }
  Place first() { return list.begin(); }
  Place end() { return list.end(); }
  Element *at(Place place) { return &*place; }
  void push_back(Element *it) { list.push_back(*it); }
  void push_front(Element *it) { list.push_front(*it); }
  Element *pop_front() { return popped(&list.front(), [this] { list.pop_front(); }); }
  Element *pop_back() { return popped(&list.back(), [this] { list.pop_back(); }); }
  Place remove(Place place) { return list.erase(place); }
  void remove(Element *it) { list.erase(list.iterator_to(*it)); }
  void insert_before(Place place, Element *it) { list.insert(place, *it); }
  void append(BoostList &other) { list.splice(list.end(), other.list); }

  template <class Pop>
  static Element *popped(Element *it, Pop pop) {
    pop();
    return it;
  }

  // The last of so many elements go to another list.
  void split_off(size_t count, size_t at, BoostList &rest) {
    Place place = at <= count / 2 ? list.begin() : list.end();
    for (size_t moved = 0; at <= count / 2 && moved < at; moved++) ++place;
    for (size_t moved = count; at > count / 2 && moved > at; moved--) --place;
    rest.list.splice(rest.list.end(), list, place, list.end(), count - at);
  }
};
#endif

// A ring of links whose head is no element, as Linux has it. It knows no length.
struct Link {
  Link *next, *prev;
};

struct RingElement : Link {
  uint64_t id, value;
};

static void join(Link *before, Link *after) {
  before->next = after;
  after->prev = before;
}

static void put_between(Link *before, Link *it, Link *after) {
  after->prev = it;
  it->next = after;
  it->prev = before;
  before->next = it;
}

struct Ring {
  using Element = RingElement;
  using Place = Link *;
  Link head{&head, &head};

  Ring() = default;
  Ring(const Ring &) = delete;
  bool is_empty() { return head.next == &head; }
  Place first() { return head.next; }
  Place end() { return &head; }
  Element *at(Place place) { return static_cast<Element *>(place); }
  void push_back(Element *it) { put_between(head.prev, it, &head); }
  void push_front(Element *it) { put_between(&head, it, head.next); }
  void remove(Element *it) { join(it->prev, it->next); }
  void insert_before(Place place, Element *it) { put_between(place->prev, it, place); }

  Element *pop_front() {
    Element *it = at(head.next);
    remove(it);
    return it;
  }

  Element *pop_back() {
    Element *it = at(head.prev);
    remove(it);
    return it;
  }

  Place remove(Place place) {
    Link *after = place->next;
    join(place->prev, after);
    return after;
  }

  void append(Ring &other) {
    if (other.is_empty()) return;
    Link *first = other.head.next, *last = other.head.prev;
    join(head.prev, first);
    join(last, &head);
    join(&other.head, &other.head);
  }

  void split_off(size_t count, size_t at, Ring &rest) {
    Link *place = &head;
    for (size_t moved = 0; at <= count / 2 && moved <= at; moved++) place = place->next;
    for (size_t moved = count; at > count / 2 && moved > at; moved--) place = place->prev;
    Link *before = place->prev, *last = head.prev;
    join(&rest.head, place);
    join(last, &rest.head);
    join(before, &head);
  }
};

// The tail queue of BSD. It knows no length, and has no split.
struct TailElement {
  TAILQ_ENTRY(TailElement) links;
  uint64_t id, value;
};

TAILQ_HEAD(TailHead, TailElement);

struct TailQueue {
  using Element = TailElement;
  using Place = TailElement *;
  TailHead head;

  TailQueue() { TAILQ_INIT(&head); }
  TailQueue(const TailQueue &) = delete;
  bool is_empty() { return TAILQ_EMPTY(&head); }
  Place first() { return TAILQ_FIRST(&head); }
  Place end() { return nullptr; }
  Element *at(Place place) { return place; }
  void push_back(Element *it) { TAILQ_INSERT_TAIL(&head, it, links); }
  void push_front(Element *it) { TAILQ_INSERT_HEAD(&head, it, links); }
  void append(TailQueue &other) { TAILQ_CONCAT(&head, &other.head, links); }

  Element *pop_front() {
    Element *it = TAILQ_FIRST(&head);
    TAILQ_REMOVE(&head, it, links);
    return it;
  }

  Element *pop_back() {
    Element *it = TAILQ_LAST(&head, TailHead);
    TAILQ_REMOVE(&head, it, links);
    return it;
  }

  Place remove(Place place) {
    Element *after = TAILQ_NEXT(place, links);
    TAILQ_REMOVE(&head, place, links);
    return after;
  }

  void insert_before(Place place, Element *it) {
    if (place == nullptr) return push_back(it);
    TAILQ_INSERT_BEFORE(place, it, links);
  }
};

static TailElement *next(TailElement *it) { return TAILQ_NEXT(it, links); }
static Link *next(Link *it) { return it->next; }
#ifdef WITH_BOOST
static BoostList::Place next(BoostList::Place it) { return ++it; }
#endif

template <class List, class Element>
static void fill(List &list, Elements<Element> &elements) {
  for (Element *it : elements.waiting) list.push_back(it);
  elements.waiting.clear();
}

template <class List, class Element>
static uint64_t empty(List &list, Elements<Element> &elements) {
  uint64_t sum = 0;
  while (!list.is_empty()) {
    Element *it = list.pop_front();
    sum += it->value;
    elements.waiting.push_back(it);
  }
  return sum;
}

// All go in at the back, then all out at the front.
template <class List>
static Time pass_through(size_t count, size_t rounds) {
  Elements<typename List::Element> elements(count);
  Time time;
  for (size_t round = 0; round < rounds; round++) {
    List list;
    uint64_t sum = 0;
    time += timed(2.0 * count, [&] {
      while (!elements.waiting.empty()) list.push_back(elements.next());
      sum = empty(list, elements);
    });
    expect(sum, elements.sum);
  }
  return time;
}

// The same, where only what goes in counts.
template <class List>
static Time push_back(size_t count, size_t rounds) {
  Elements<typename List::Element> elements(count);
  Time time;
  for (size_t round = 0; round < rounds; round++) {
    List list;
    time += timed(count, [&] {
      while (!elements.waiting.empty()) list.push_back(elements.next());
    });
    expect(empty(list, elements), elements.sum);
  }
  return time;
}

// All go in, one in four at the back and the others at the front, then all out, one in four at the front.
template <class List>
static Time both_ends(size_t count, size_t rounds) {
  Elements<typename List::Element> elements(count);
  Time time;
  for (size_t round = 0; round < rounds; round++) {
    List list;
    uint64_t sum = 0;
    time += timed(2.0 * count, [&] {
      while (!elements.waiting.empty()) {
        auto *it = elements.next();
        if (elements.waiting.size() % 4 == 0) list.push_back(it);
        else list.push_front(it);
      }
      while (!list.is_empty()) {
        auto *it = elements.waiting.size() % 4 == 0 ? list.pop_front() : list.pop_back();
        sum += it->value;
        elements.waiting.push_back(it);
      }
    });
    expect(sum, elements.sum);
  }
  return time;
}

// Each in turn goes from the front to the back.
template <class List>
static Time rotate(size_t count, size_t rounds) {
  Elements<typename List::Element> elements(count);
  List list;
  fill(list, elements);
  Time time;
  for (size_t round = 0; round < rounds; round++) {
    uint64_t sum = 0;
    time += timed(2.0 * count, [&] {
      for (size_t turn = 0; turn < count; turn++) {
        auto *it = list.pop_front();
        sum += it->value;
        list.push_back(it);
      }
    });
    expect(sum, elements.sum);
  }
  return time;
}

template <class List>
static uint64_t walk(List &list) {
  uint64_t sum = 0;
  for (auto place = list.first(); place != list.end(); place = next(place)) sum += list.at(place)->value;
  return sum;
}

// A walk through the list, whose elements lie as they were made, or scattered.
template <class List, bool is_scattered>
static Time iterate(size_t count, size_t rounds) {
  Elements<typename List::Element> elements(count);
  if (is_scattered) shuffle(elements.waiting);
  List list;
  fill(list, elements);
  Time time;
  for (size_t round = 0; round < rounds; round++) {
    uint64_t sum = 0;
    time += timed(count, [&] { sum = walk(list); });
    expect(sum, elements.sum);
  }
  return time;
}

// A walk that adds one to each value.
template <class List>
static Time change(size_t count, size_t rounds) {
  Elements<typename List::Element> elements(count);
  List list;
  fill(list, elements);
  Time time;
  for (size_t round = 0; round < rounds; round++) {
    time += timed(count, [&] {
      for (auto place = list.first(); place != list.end(); place = next(place)) list.at(place)->value += 1;
    });
  }
  expect(walk(list), elements.sum + count * rounds);
  return time;
}

// Each element of the third quarter is taken out, and put in again before the next.
template <class List>
static Time edit(size_t count, size_t rounds) {
  Elements<typename List::Element> elements(count);
  List list;
  fill(list, elements);
  Time time;
  for (size_t round = 0; round < rounds; round++) {
    auto place = list.first();
    for (size_t moved = 0; moved < count / 2; moved++) place = next(place);
    time += timed(count / 4 * 2, [&] {
      for (size_t edits = 0; edits < count / 4 && place != list.end(); edits++) {
        auto *it = list.at(place);
        place = list.remove(place);
        list.insert_before(place, it);
      }
    });
  }
  expect(walk(list), elements.sum);
  return time;
}

// Lists of four are appended to one.
template <class List>
static Time append(size_t count, size_t rounds) {
  Elements<typename List::Element> elements(count);
  Time time;
  for (size_t round = 0; round < rounds; round++) {
    vector<List> parts(count / 4);
    for (List &part : parts) {
      for (int few = 0; few < 4; few++) part.push_front(elements.next());
    }
    List list;
    time += timed(count / 4, [&] {
      for (List &part : parts) list.append(part);
    });
    expect(empty(list, elements), elements.sum);
  }
  return time;
}

// Where a list of so many elements is split.
using Cut = size_t (*)(size_t count);

// A split, and the append that undoes it.
template <class List>
static Time split(size_t count, size_t rounds, size_t at) {
  Elements<typename List::Element> elements(count);
  List list;
  fill(list, elements);
  Time time = timed(rounds, [&] {
    for (size_t round = 0; round < rounds; round++) {
      List rest;
      asm volatile("" : "+r"(at));
      list.split_off(count, at, rest);
      list.append(rest);
    }
  });
  expect(walk(list), elements.sum);
  return time;
}

// Half of the elements are taken out by a filter.
template <class List>
static Time filter(size_t count, size_t rounds) {
  Elements<typename List::Element> elements(count);
  Time time;
  for (size_t round = 0; round < rounds; round++) {
    List list;
    fill(list, elements);
    time += timed(count, [&] {
      for (auto place = list.first(); place != list.end();) {
        auto *it = list.at(place);
        if (it->value % 2 == 0) {
          place = list.remove(place);
          elements.waiting.push_back(it);
        } else {
          place = next(place);
        }
      }
    });
    uint64_t sum = 0;
    for (auto *it : elements.waiting) sum += it->value;
    expect(sum + empty(list, elements), elements.sum);
    std::sort(elements.waiting.begin(), elements.waiting.end());
  }
  return time;
}

template <class List>
static void add_list(const char *peer) {
  one_thread[{"ends", peer}] = pass_through<List>;
  one_thread[{"both ends", peer}] = both_ends<List>;
  one_thread[{"rotate", peer}] = rotate<List>;
  one_thread[{"walk", peer}] = iterate<List, false>;
  one_thread[{"scattered walk", peer}] = iterate<List, true>;
  one_thread[{"change", peer}] = change<List>;
  one_thread[{"edit", peer}] = edit<List>;
  one_thread[{"append", peer}] = append<List>;
  one_thread[{"filter", peer}] = filter<List>;
  one_thread[{"push back", peer}] = push_back<List>;
}

template <class List>
static void add_splits(const char *peer) {
  one_thread[{"split first", peer}] = [](size_t count, size_t rounds) { return split<List>(count, rounds, 8); };
  one_thread[{"split middle", peer}] = [](size_t count, size_t rounds) {
    return split<List>(count, rounds, count / 2);
  };
  one_thread[{"split last", peer}] = [](size_t count, size_t rounds) {
    return split<List>(count, rounds, count - 8);
  };
}

#ifdef WITH_BOOST
struct SortedElement : intrusive::set_base_hook<Hook, intrusive::optimize_size<true>> {
  uint64_t id, value;

  bool operator<(const SortedElement &other) const { return value < other.value; }
};

// Insertions of elements whose values rise, fall, or are as good as drawn, into Boost.Intrusive's ordered tree.
template <class Value>
static Time insert(size_t count, size_t rounds, Value value) {
  Time time;
  for (size_t round = 0; round < rounds; round++) {
    Elements<SortedElement> elements(count, value);
    std::reverse(elements.waiting.begin(), elements.waiting.end());
    intrusive::multiset<SortedElement> set;
    time += timed(count, [&] {
      while (!elements.waiting.empty()) set.insert(*elements.next());
    });
    uint64_t sum = 0;
    for (SortedElement &it : set) sum += it.value;
    expect(sum, elements.sum);
    set.clear();
  }
  return time;
}

static void add_sorted() {
  one_thread[{"insert ascending", "Boost multiset"}] = [](size_t count, size_t rounds) {
    return insert(count, rounds, [](uint64_t number) { return number; });
  };
  one_thread[{"insert descending", "Boost multiset"}] = [](size_t count, size_t rounds) {
    return insert(count, rounds, [count](uint64_t number) { return count - number; });
  };
  one_thread[{"insert random", "Boost multiset"}] = [](size_t count, size_t rounds) {
    return insert(count, rounds, mix);
  };
}
#endif

void add_lists() {
  add_list<Ring>("list_head");
  add_splits<Ring>("list_head");
  add_list<TailQueue>("TAILQ");
#ifdef WITH_BOOST
  add_list<BoostList>("Boost list");
  add_splits<BoostList>("Boost list");
  add_sorted();
#endif
}
