// Rows of maps that find structs by their keys. The structs are blocks of `malloc`, as the library's nodes are, and the
// keys are hashed as the library's are.
#include "measure.h"
#include "peers.h"

#include <new>
#include <type_traits>

#ifdef WITH_BOOST
#include <boost/intrusive/list.hpp>
#include <boost/intrusive/unordered_set.hpp>
#endif

// The members of each map: `insert` puts a struct in whose key no other has, `find` returns that of a key, and `remove`
// takes it out, or they return a null pointer if there is none. A map with `has_list` keeps its structs in a list too,
// as this library does: `insert` puts them last, and `touch` moves one to the end.

// How many buckets the library has for so many nodes: a power of 2.
static size_t buckets_for(size_t count) {
  size_t buckets = 1;
  while (buckets < count) buckets *= 2;
  return buckets;
}

#ifdef WITH_BOOST
namespace intrusive = boost::intrusive;

using Links = intrusive::list_base_hook<intrusive::link_mode<intrusive::normal_link>>;
using Chained = intrusive::unordered_set_base_hook<intrusive::link_mode<intrusive::normal_link>>;

struct NoLinks {};

// Boost.Intrusive's table, which knows its length. Its structs are in a list if they have the links for it.
template <bool is_in_list>
struct BoostMap {
  static constexpr bool has_list = is_in_list;

  struct Node : Chained, std::conditional_t<has_list, Links, NoLinks> {
    uint64_t id, key, value;
  };

  struct KeyOf {
    using type = uint64_t;
    const type &operator()(const Node &it) const { return it.key; }
  };

  struct Hash {
    size_t operator()(uint64_t key) const { return hash_key(key); }
  };

  using Set = intrusive::unordered_set<Node, intrusive::base_hook<Chained>, intrusive::key_of_value<KeyOf>,
                                       intrusive::hash<Hash>, intrusive::equal<std::equal_to<uint64_t>>,
                                       intrusive::power_2_buckets<true>>;
  using List = std::conditional_t<has_list, intrusive::list<Node, intrusive::base_hook<Links>>, NoLinks>;

  vector<typename Set::bucket_type> buckets;
  Set set;
  List list;

  explicit BoostMap(size_t count) : buckets(buckets_for(count)), set({buckets.data(), buckets.size()}) {}

  void insert(Node *it) {
    set.insert(*it);
    if constexpr (has_list) list.push_back(*it);
  }

  Node *find(uint64_t key) {
    auto at = set.find(key);
    return at == set.end() ? nullptr : &*at;
  }

  Node *remove(uint64_t key) {
    auto at = set.find(key);
    if (at == set.end()) return nullptr;
    Node *found = &*at;
    set.erase(at);
    if constexpr (has_list) list.erase(list.iterator_to(*found));
    return found;
  }

  void touch(Node *it) { list.splice(list.end(), list, list.iterator_to(*it)); }

  template <class Visit>
  void walk(Visit visit) {
    for (const Node &it : list) visit(it.key);
  }
};
#endif

#ifdef WITH_CK
// The table of Concurrency Kit, which has an entry for each struct: its address, its key and the hash.
struct CkMap {
  static constexpr bool has_list = false;

  struct Node {
    uint64_t id, key, value;
  };

  void *table;

  explicit CkMap(size_t count) : table(cktable_make(buckets_for(count))) {}
  CkMap(const CkMap &) = delete;
  ~CkMap() { cktable_free(table); }
  void insert(Node *it) { cktable_put(table, it->key, it); }
  Node *find(uint64_t key) { return static_cast<Node *>(cktable_get(table, key)); }
  Node *remove(uint64_t key) { return static_cast<Node *>(cktable_remove(table, key)); }
};
#endif

// The keys of the structs with these numbers.
static vector<uint64_t> keys_of(size_t first, size_t count) {
  vector<uint64_t> keys;
  keys.reserve(count);
  for (size_t number = 0; number < count; number++) keys.push_back(mix(first + number));
  return keys;
}

template <class Node>
static vector<Node *> make_nodes(size_t count) {
  vector<Node *> nodes;
  nodes.reserve(count);
  for (size_t number = 0; number < count; number++) {
    void *room = std::malloc(sizeof(Node));
    if (room == nullptr) std::abort();
    Node *it = new (room) Node;
    it->id = number;
    it->key = mix(number);
    it->value = mix(it->key);
    nodes.push_back(it);
  }
  return nodes;
}

// Puts all of the structs in, the last first.
template <class Map, class Node = typename Map::Node>
static void insert_all(Map &map, vector<Node *> &nodes) {
  while (!nodes.empty()) {
    map.insert(nodes.back());
    nodes.pop_back();
  }
}

// Removes the structs of these keys, and frees them. Answers the sum of their values.
template <class Map, class Node = typename Map::Node>
static uint64_t remove_all(Map &map, const vector<uint64_t> &keys) {
  uint64_t sum = 0;
  for (uint64_t key : keys) {
    if (Node *it = map.remove(key)) {
      sum += it->value;
      it->~Node();
      std::free(it);
    }
  }
  return sum;
}

static uint64_t sum_of(const vector<uint64_t> &keys) {
  uint64_t sum = 0;
  for (uint64_t key : keys) sum += mix(key);
  return sum;
}

// A map whose structs stay, and its keys.
template <class Map>
struct Filled {
  Map map;
  vector<uint64_t> keys;

  explicit Filled(size_t count) : map(count), keys(keys_of(0, count)) {
    auto nodes = make_nodes<typename Map::Node>(count);
    insert_all(map, nodes);
  }

  Filled(const Filled &) = delete;
  ~Filled() { remove_all(map, keys); }
};

// Looks keys up, and adds up the values that it finds.
template <class Map>
static uint64_t get_all(Map &map, const vector<uint64_t> &keys) {
  uint64_t sum = 0;
  for (uint64_t key : keys) {
    if (auto *it = map.find(key)) sum += it->value;
  }
  return sum;
}

template <class Map>
static Time get(size_t count, size_t rounds) {
  Filled<Map> filled(count);
  Time time;
  for (size_t round = 0; round < rounds; round++) {
    uint64_t sum = 0;
    shuffle(filled.keys);
    time += timed(count, [&] { sum = get_all(filled.map, filled.keys); });
    expect(sum, sum_of(filled.keys));
  }
  return time;
}

template <class Map>
static Time miss(size_t count, size_t rounds) {
  Filled<Map> filled(count);
  vector<uint64_t> others = keys_of(count, count);
  Time time;
  for (size_t round = 0; round < rounds; round++) {
    uint64_t sum = 0;
    shuffle(others);
    time += timed(count, [&] { sum = get_all(filled.map, others); });
    expect(sum, 0);
  }
  return time;
}

// Structs are looked up, and move to the end of the list.
template <class Map>
static Time touch(size_t count, size_t rounds) {
  Filled<Map> filled(count);
  Time time;
  for (size_t round = 0; round < rounds; round++) {
    uint64_t sum = 0;
    shuffle(filled.keys);
    time += timed(count, [&] {
      for (uint64_t key : filled.keys) {
        if (auto *it = filled.map.find(key)) {
          filled.map.touch(it);
          sum += it->value;
        }
      }
    });
    expect(sum, sum_of(filled.keys));
  }
  vector<uint64_t> left;
  filled.map.walk([&](uint64_t key) { left.push_back(key); });
  expect(left == filled.keys, true);
  return time;
}

// Structs that are made before the clock starts go in, and come out again in no order. One of the two is counted.
template <class Map, bool counts_removals>
static Time remake(size_t count, size_t rounds) {
  vector<uint64_t> keys = keys_of(0, count);
  Time time;
  for (size_t round = 0; round < rounds; round++) {
    uint64_t sum = 0;
    shuffle(keys);
    auto nodes = make_nodes<typename Map::Node>(count);
    Map map(count);
    Time inserted = timed(count, [&] { insert_all(map, nodes); });
    Time removed = timed(count, [&] { sum = remove_all(map, keys); });
    time += counts_removals ? removed : inserted;
    expect(sum, sum_of(keys));
  }
  return time;
}

template <class Map>
static void add_map_of(const char *peer) {
  one_thread[{"map, get", peer}] = get<Map>;
  one_thread[{"map, get another", peer}] = miss<Map>;
  one_thread[{"map, insert", peer}] = remake<Map, false>;
  one_thread[{"map, remove", peer}] = remake<Map, true>;
  if constexpr (Map::has_list) one_thread[{"map, touch", peer}] = touch<Map>;
}

void add_maps() {
#ifdef WITH_BOOST
  add_map_of<BoostMap<true>>("Boost unordered_set, list");
  add_map_of<BoostMap<false>>("Boost unordered_set");
#endif
#ifdef WITH_CK
  add_map_of<CkMap>("ck_ht");
#endif
}
