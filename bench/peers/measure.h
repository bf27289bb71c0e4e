// How a row is measured, and what it is measured with.
#ifndef BESIDE_MEASURE_H
#define BESIDE_MEASURE_H

#include <chrono>
#include <cstddef>
#include <cstdint>
#include <cstdio>
#include <cstdlib>
#include <functional>
#include <map>
#include <memory>
#include <string>
#include <utility>
#include <vector>

using std::size_t;
using std::uint64_t;
using std::vector;

// The value of the element with a number: as good as drawn, and always the same.
inline uint64_t mix(uint64_t number) {
  uint64_t value = number + 0x9e3779b97f4a7c15u;
  value = (value ^ (value >> 30)) * 0xbf58476d1ce4e5b9u;
  value = (value ^ (value >> 27)) * 0x94d049bb133111ebu;
  return value ^ (value >> 31);
}

// The time of so many operations.
struct Time {
  double nanoseconds = 0;
  double operations = 0;

  Time &operator+=(const Time &other) {
    nanoseconds += other.nanoseconds;
    operations += other.operations;
    return *this;
  }
};

// The time that a part of a round takes. What it writes counts as read.
template <class Part>
Time timed(double operations, Part part) {
  auto begin = std::chrono::steady_clock::now();
  part();
  asm volatile("" ::: "memory");
  std::chrono::duration<double, std::nano> passed = std::chrono::steady_clock::now() - begin;
  return {passed.count(), operations};
}

// Ends the program if a sum of values is another than it has to be.
inline void expect(uint64_t sum, uint64_t expected) {
  if (sum != expected) {
    std::fputs("beside: a sum of values is wrong\n", stderr);
    std::exit(1);
  }
}

// The elements of a row, which wait in a vector, and the sum of their values.
template <class Element>
struct Elements {
  vector<std::unique_ptr<Element>> owned;
  vector<Element *> waiting;
  uint64_t sum = 0;

  template <class Value>
  Elements(size_t count, Value value) {
    waiting.reserve(count);
    for (size_t number = 0; number < count; number++) {
      owned.push_back(std::make_unique<Element>());
      owned.back()->id = number;
      owned.back()->value = value(number);
      sum += owned.back()->value;
      waiting.push_back(owned.back().get());
    }
  }

  explicit Elements(size_t count) : Elements(count, mix) {}

  Element *next() {
    Element *element = waiting.back();
    waiting.pop_back();
    return element;
  }
};

// Puts items into another order, the same each time.
template <class Item>
void shuffle(vector<Item> &items) {
  uint64_t state = 0x9e3779b97f4a7c15u;
  for (size_t last = items.size(); last > 1; last--) {
    state ^= state << 13;
    state ^= state >> 7;
    state ^= state << 17;
    std::swap(items[last - 1], items[state % last]);
  }
}

// A row measures so many rounds with so many elements, or so many milliseconds with so many threads that put in.
using Row = std::function<Time(size_t number, size_t rounds)>;

// The rows on one thread and those where threads meet, by their names and their peers'.
extern std::map<std::pair<std::string, std::string>, Row> one_thread, meetings;

// Adds the rows of lists and sorted sets, of nodes in two lists, of maps, and of stacks and queues that threads share.
void add_lists();
void add_many();
void add_maps();
void add_shared();

// Adds the rows of the calls for C, to a program that has no others.
void add_border();

#endif
