// Rows of stacks and queues that threads share. A stack is emptied at once, most queues element by element.
#include "measure.h"
#include "peers.h"

#include <algorithm>
#include <atomic>
#include <mutex>
#include <thread>

#ifdef WITH_MOODYCAMEL
#include <concurrentqueue/concurrentqueue.h>
#endif

// An element that begins with the pointer that is its node.
struct SharedElement {
  void *node;
  uint64_t id, value;
};

// Where one thread puts elements in. What it has gathered, if it gathers, goes in by `flush`.
template <class Shared>
struct Producer {
  Shared &shared;

  explicit Producer(Shared &shared) : shared(shared) {}
  void put(SharedElement *it) { shared.put(it); }
  void flush() {}
};

// A stack by its calls.
template <auto make, auto push, auto take_all, auto after>
struct ByCalls {
  void *stack = make();

  explicit ByCalls(size_t) {}
  void put(SharedElement *it) { push(stack, it); }

  template <class Out>
  bool take(Out out) {
    void *it = take_all(stack);
    if (it == nullptr) return false;
    while (it != nullptr) {
      void *following = after(it);
      out(static_cast<SharedElement *>(it));
      it = following;
    }
    return true;
  }
};

// A vector behind a lock.
struct LockedVector {
  alignas(128) std::mutex mutex;
  vector<SharedElement *> elements, taken;

  explicit LockedVector(size_t) {}

  void put(SharedElement *it) {
    std::lock_guard<std::mutex> lock(mutex);
    elements.push_back(it);
  }

  template <class Out>
  bool take(Out out) {
    {
      std::lock_guard<std::mutex> lock(mutex);
      taken.insert(taken.end(), elements.begin(), elements.end());
      elements.clear();
    }
    bool is_some = !taken.empty();
    for (SharedElement *it : taken) out(it);
    taken.clear();
    return is_some;
  }
};

#ifdef WITH_URCU
// liburcu's queue, by one of the calls that take a node out.
template <auto take_one>
struct WaitFreeQueue {
  void *queue = wfqueue_make();

  explicit WaitFreeQueue(size_t) {}
  void put(SharedElement *it) { wfqueue_put(queue, it); }

  template <class Out>
  bool take(Out out) {
    void *it = take_one(queue);
    if (it == nullptr) return false;
    out(static_cast<SharedElement *>(it));
    return true;
  }
};

// The same, where a producer links 64 elements and then moves them in, and the consumer moves all out at once.
struct SplicedQueue {
  void *queue = wfqueue_make();
  void *out_of_queue = wfchain_make();

  explicit SplicedQueue(size_t) {}

  template <class Out>
  bool take(Out out) {
    wfchain_move_out(out_of_queue, queue);
    bool is_some = false;
    while (void *it = wfchain_take(out_of_queue)) {
      out(static_cast<SharedElement *>(it));
      is_some = true;
    }
    return is_some;
  }
};

template <>
struct Producer<SplicedQueue> {
  void *queue, *chain = wfchain_make();
  int gathered = 0;

  explicit Producer(SplicedQueue &shared) : queue(shared.queue) {}
  ~Producer() { std::free(chain); }

  void put(SharedElement *it) {
    wfchain_put(chain, it);
    if (++gathered == 64) flush();
  }

  void flush() {
    if (gathered > 0) wfchain_move_in(chain, queue);
    gathered = 0;
  }
};
#endif

#ifdef WITH_MOODYCAMEL
// moodycamel's queue by tokens: up to 64 elements come out at once. They go in one by one, or 64 at once.
template <bool in_bulk>
struct TokenQueue {
  using Queue = moodycamel::ConcurrentQueue<SharedElement *>;
  Queue queue;
  moodycamel::ConsumerToken token;

  explicit TokenQueue(size_t count) : queue(count), token(queue) {}

  template <class Out>
  bool take(Out out) {
    SharedElement *taken[64];
    size_t count = queue.try_dequeue_bulk(token, taken, 64);
    for (size_t at = 0; at < count; at++) out(taken[at]);
    return count > 0;
  }
};

template <>
struct Producer<TokenQueue<false>> {
  TokenQueue<false>::Queue &queue;
  moodycamel::ProducerToken token;

  explicit Producer(TokenQueue<false> &shared) : queue(shared.queue), token(queue) {}
  void put(SharedElement *it) { queue.enqueue(token, it); }
  void flush() {}
};

template <>
struct Producer<TokenQueue<true>> {
  TokenQueue<true>::Queue &queue;
  moodycamel::ProducerToken token;
  SharedElement *gathered[64];
  size_t count = 0;

  explicit Producer(TokenQueue<true> &shared) : queue(shared.queue), token(queue) {}

  void put(SharedElement *it) {
    gathered[count++] = it;
    if (count == 64) flush();
  }

  void flush() {
    if (count > 0) queue.enqueue_bulk(token, gathered, count);
    count = 0;
  }
};
#endif

// All go in, and then all come out. So many operations count for each element.
template <class Shared, int counted>
static Time fill_and_empty(size_t count, size_t rounds) {
  Elements<SharedElement> elements(count);
  Shared shared(count);
  Producer<Shared> producer(shared);
  Time time;
  for (size_t round = 0; round < rounds; round++) {
    uint64_t sum = 0;
    time += timed(double(counted) * count, [&] {
      while (!elements.waiting.empty()) producer.put(elements.next());
      producer.flush();
      while (shared.take([&](SharedElement *it) {
        sum += it->value;
        elements.waiting.push_back(it);
      })) {
      }
    });
    expect(sum, elements.sum);
  }
  return time;
}

// Each element comes out before the next goes in.
template <class Shared>
static Time one_by_one(size_t count, size_t rounds) {
  Elements<SharedElement> elements(count);
  Shared shared(count);
  Producer<Shared> producer(shared);
  Time time;
  for (size_t round = 0; round < rounds; round++) {
    uint64_t sum = 0;
    time += timed(2.0 * count, [&] {
      for (size_t turn = 0; turn < count; turn++) {
        producer.put(elements.next());
        producer.flush();
        shared.take([&](SharedElement *it) {
          sum += it->value;
          elements.waiting.push_back(it);
        });
      }
    });
    expect(sum, count == 0 ? 0 : elements.waiting.back()->value * count);
  }
  return time;
}

// How many elements each producer of a meeting begins with, and how many of them come back at a time.
static const size_t EACH = 4096, QUARTER = EACH / 4;

// How long all threads are at work before the window begins, in nanoseconds: meanwhile bench/beside gives each of them
// a processor of its own. And how often the taker tries before it looks at the clock. Both are as in cordyceps_speed.
static const double WARM_UP = 100e6;
static const int TRIES = 128;

// Where threads meet. What different threads write lies in cache lines where nothing else lies.
template <class Shared>
struct Ground {
  alignas(128) Shared shared;
  alignas(128) std::atomic<size_t> arrived{0};
  alignas(128) std::atomic<bool> is_over{false};
  // Elements that the taker gave back.
  alignas(128) std::mutex mutex;
  vector<SharedElement *> returned;

  explicit Ground(size_t count) : shared(count) { returned.reserve(count); }

  void meet(size_t threads) {
    arrived++;
    while (arrived < threads) {
    }
  }

  void give(vector<SharedElement *> &taken) {
    std::lock_guard<std::mutex> lock(mutex);
    returned.insert(returned.end(), taken.begin(), taken.end());
    taken.clear();
  }

  // Replaces these elements by some that came back.
  void fetch(vector<SharedElement *> &elements) {
    std::lock_guard<std::mutex> lock(mutex);
    size_t left = returned.size() - std::min(returned.size(), QUARTER);
    elements.assign(returned.begin() + left, returned.end());
    returned.resize(left);
  }
};

// Puts elements in, and those that come back, until the run is over.
template <class Shared>
static void produce(Ground<Shared> &ground, size_t threads, vector<SharedElement *> elements) {
  Producer<Shared> producer(ground.shared);
  ground.meet(threads);
  for (;;) {
    for (SharedElement *it : elements) producer.put(it);
    elements.clear();
    if (ground.is_over) break;
    ground.fetch(elements);
    if (elements.empty()) std::this_thread::yield();
  }
  producer.flush();
}

// Takes out what one try gives, and returns how many.
template <class Shared>
static size_t take(Ground<Shared> &ground, vector<SharedElement *> &taken) {
  size_t before = taken.size();
  ground.shared.take([&](SharedElement *it) { taken.push_back(it); });
  size_t found = taken.size() - before;
  if (taken.size() >= QUARTER) ground.give(taken);
  if (found == 0) __builtin_ia32_pause();
  return found;
}

// Takes elements out for so long, and counts them.
template <class Shared>
static Time take_for(Ground<Shared> &ground, vector<SharedElement *> &taken, double nanoseconds) {
  Time time;
  while (time.nanoseconds < nanoseconds) {
    size_t count = 0;
    Time passed = timed(0, [&] {
      for (int turn = 0; turn < TRIES; turn++) count += take(ground, taken);
    });
    time += {passed.nanoseconds, double(count)};
  }
  return time;
}

// One thread takes out what others put in: how many it takes while all are at work, in a window of so many
// milliseconds. At the end each element has to be somewhere.
template <class Shared>
static Time meet(size_t producers, size_t milliseconds) {
  auto ground = std::make_unique<Ground<Shared>>(EACH * producers);
  vector<Elements<SharedElement>> parts;
  vector<std::thread> threads;
  uint64_t sum = 0, expected = 0;
  for (size_t number = 0; number < producers; number++) {
    parts.emplace_back(EACH);
    expected += parts.back().sum;
  }
  for (auto &part : parts) {
    threads.emplace_back([&] { produce(*ground, producers + 1, std::move(part.waiting)); });
  }
  vector<SharedElement *> taken;
  taken.reserve(EACH * producers);
  ground->meet(producers + 1);
  take_for(*ground, taken, WARM_UP);
  Time time = take_for(*ground, taken, milliseconds * 1e6);
  ground->is_over = true;
  for (std::thread &it : threads) it.join();
  while (take(*ground, taken) > 0) {
  }
  ground->give(taken);
  for (SharedElement *it : ground->returned) sum += it->value;
  expect(sum, expected);
  return time;
}

template <class Stack>
static void add_stack(const char *peer) {
  one_thread[{"transfer", peer}] = fill_and_empty<Stack, 1>;
  meetings[{"meet transfer", peer}] = meet<Stack>;
}

template <class Queue>
static void add_queue(const char *peer) {
  one_thread[{"queue", peer}] = fill_and_empty<Queue, 2>;
  one_thread[{"one by one", peer}] = one_by_one<Queue>;
  meetings[{"meet queue", peer}] = meet<Queue>;
}

void add_shared() {
  add_stack<LockedVector>("Mutex<Vec>");
#ifdef WITH_CK
  add_stack<ByCalls<ckstack_make, ckstack_push, ckstack_take_all, ckstack_after>>("ck_stack");
#endif
#ifdef WITH_URCU
  add_stack<ByCalls<wfstack_make, wfstack_push, wfstack_take_all, wfstack_after>>("wfstack");
  add_stack<ByCalls<lfstack_make, lfstack_push, lfstack_take_all, lfstack_after>>("lfstack");
  add_queue<WaitFreeQueue<wfqueue_take>>("wfcqueue");
  add_queue<WaitFreeQueue<wfqueue_take_at_once>>("wfcqueue, nonblocking");
  add_queue<WaitFreeQueue<wfqueue_take_by_lock>>("wfcqueue with its lock");
  add_queue<SplicedQueue>("wfcqueue, 64 spliced in");
#endif
#ifdef WITH_MOODYCAMEL
  add_queue<TokenQueue<false>>("moodycamel, tokens");
  add_queue<TokenQueue<true>>("moodycamel, 64 at once");
#endif
}
