/* A list keeps its order, its tickets name elements until these come out, and stale tickets name nothing. */
#include <string.h>

#include "checked.h"

enum { MOST = 60, STALE = 40, CALLS = 1000000, NUMBER = 7 };

static bool same(cordyceps_ticket a, cordyceps_ticket b) {
  return a.collection == b.collection && a.slot == b.slot && a.number == b.number;
}

/* The list has these payloads, by each way through it. */
static void has(cordyceps_list *list, const char *payloads) {
  size_t count = strlen(payloads), i = 0;
  cordyceps_ticket at, last;
  uint64_t payload = 0;
  CHECK(cordyceps_list_len(list) == count);
  CHECK(cordyceps_list_front(list, &at) == (count > 0) && cordyceps_list_back(list, &last) == (count > 0));
  for (bool more = count > 0; more; more = cordyceps_list_next(list, at, &at), i++)
    CHECK(cordyceps_list_get(list, at, &payload) && payload == (uint64_t)payloads[i]);
  CHECK(i == count && (!count || same(at, last)));
  for (bool more = count > 0; more; more = cordyceps_list_prev(list, at, &at), i--)
    CHECK(cordyceps_list_get(list, at, &payload) && payload == (uint64_t)payloads[i - 1]);
  CHECK(i == 0);
}

static void each_answer(void) {
  cordyceps_list list = {0};
  cordyceps_ticket a, b, c, d, e = {1, 2, 3};
  uint64_t out = 9;
  CHECK(cordyceps_list_new(NUMBER, &list) && list.at);
  has(&list, "");
  CHECK(!cordyceps_list_pop_front(&list, &out) && !cordyceps_list_pop_back(&list, &out) && out == 9);
  CHECK(!cordyceps_list_front(&list, &e) && !cordyceps_list_back(&list, &e) && same(e, (cordyceps_ticket){1, 2, 3}));
  CHECK(cordyceps_list_push_back(&list, 'b', &b) && b.collection == NUMBER && b.number == 1);
  CHECK(cordyceps_list_push_front(&list, 'a', &a) && a.number == 2);
  CHECK(cordyceps_list_insert_after(&list, b, 'd', &d) && d.number == 3);
  CHECK(cordyceps_list_insert_before(&list, d, 'c', &c) && c.number == 4);
  has(&list, "abcd");
  CHECK(cordyceps_list_move_to_front(&list, c) && cordyceps_list_move_to_front(&list, c));
  has(&list, "cabd");
  CHECK(cordyceps_list_move_to_back(&list, a) && cordyceps_list_move_to_back(&list, a));
  has(&list, "cbda");
  CHECK(cordyceps_list_move_after(&list, c, d) && cordyceps_list_move_after(&list, c, d));
  has(&list, "bdca");
  CHECK(!cordyceps_list_move_after(&list, c, c));
  CHECK(cordyceps_list_remove(&list, d, &out) && out == 'd');
  has(&list, "bca");
  CHECK(cordyceps_list_pop_front(&list, &out) && out == 'b');
  CHECK(cordyceps_list_pop_back(&list, &out) && out == 'a');
  has(&list, "c");
  CHECK(cordyceps_list_free(&list) && !list.at);
}

/* No call with this ticket finds an element, or changes the list. */
static void names_nothing(cordyceps_list *list, cordyceps_ticket at, cordyceps_ticket there) {
  cordyceps_ticket ticket = {1, 2, 3};
  uint64_t out = 9;
  size_t count = cordyceps_list_len(list);
  CHECK(!cordyceps_list_get(list, at, &out) && !cordyceps_list_remove(list, at, &out) && out == 9);
  CHECK(!cordyceps_list_insert_before(list, at, 1, &ticket) && !cordyceps_list_insert_after(list, at, 1, &ticket));
  CHECK(!cordyceps_list_next(list, at, &ticket) && !cordyceps_list_prev(list, at, &ticket));
  CHECK(same(ticket, (cordyceps_ticket){1, 2, 3}) && cordyceps_list_len(list) == count);
  CHECK(!cordyceps_list_move_to_front(list, at) && !cordyceps_list_move_to_back(list, at));
  CHECK(!cordyceps_list_move_after(list, at, there) && !cordyceps_list_move_after(list, there, at));
}

static void stale_tickets(void) {
  cordyceps_list list = {0}, other = {0};
  cordyceps_ticket a, b, c, nothing = {0, 0, 0}, wild = {NUMBER, UINT32_MAX, UINT64_MAX};
  uint64_t out = 0;
  CHECK(cordyceps_list_new(NUMBER, &list) && cordyceps_list_new(NUMBER + 1, &other));
  CHECK(cordyceps_list_push_back(&list, 'a', &a) && cordyceps_list_push_back(&list, 'b', &b));
  CHECK(cordyceps_list_push_back(&other, 'x', &c) && c.slot == a.slot && c.number == a.number);
  names_nothing(&list, c, a);
  names_nothing(&other, a, c);
  CHECK(cordyceps_list_remove(&list, a, &out) && out == 'a');
  names_nothing(&list, a, b);
  /* the next one gets the same slot, and a ticket of its own */
  CHECK(cordyceps_list_push_back(&list, 'c', &c) && c.slot == a.slot && c.number == 3);
  names_nothing(&list, a, b);
  names_nothing(&list, nothing, b);
  names_nothing(&list, wild, b);
  has(&list, "bc");
  has(&other, "x");
  CHECK(cordyceps_list_free(&list) && cordyceps_list_free(&other));
}

/* What the list has to hold, in order, and tickets whose elements came out. */
static struct {
  cordyceps_ticket ticket;
  uint64_t payload;
} rows[MOST];
static size_t count;
static cordyceps_ticket stale[STALE];
static uint64_t given;

static uint32_t random_below(uint32_t n) {
  static uint64_t seed = 88172645463325252u;
  seed ^= seed << 13;
  seed ^= seed >> 7;
  seed ^= seed << 17;
  return (uint32_t)(seed >> 32) % n;
}

/* Where the element of a ticket is, or MOST. */
static size_t place_of(cordyceps_ticket ticket) {
  for (size_t i = 0; i < count; i++)
    if (same(rows[i].ticket, ticket))
      return i;
  return MOST;
}

static cordyceps_ticket any_ticket(void) {
  return count && random_below(5) ? rows[random_below((uint32_t)count)].ticket : stale[random_below(STALE)];
}

static void put_in(size_t place, uint64_t payload, cordyceps_ticket ticket) {
  CHECK(ticket.collection == NUMBER && ticket.number == ++given);
  memmove(rows + place + 1, rows + place, (count - place) * sizeof *rows);
  rows[place].ticket = ticket;
  rows[place].payload = payload;
  count++;
}

static void take_out(size_t place) {
  count--;
  memmove(rows + place, rows + place + 1, (count - place) * sizeof *rows);
}

static void end(size_t place, uint64_t payload) {
  CHECK(payload == rows[place].payload);
  stale[random_below(STALE)] = rows[place].ticket;
  take_out(place);
}

static void move(size_t place, size_t to) {
  cordyceps_ticket ticket = rows[place].ticket;
  uint64_t payload = rows[place].payload;
  take_out(place);
  memmove(rows + to + 1, rows + to, (count - to) * sizeof *rows);
  rows[to].ticket = ticket;
  rows[to].payload = payload;
  count++;
}

static void push_any(cordyceps_list *list, uint64_t payload) {
  cordyceps_ticket at = any_ticket(), ticket;
  size_t place = place_of(at);
  switch (random_below(4)) {
  case 0:
    CHECK(cordyceps_list_push_front(list, payload, &ticket));
    put_in(0, payload, ticket);
    break;
  case 1:
    CHECK(cordyceps_list_push_back(list, payload, &ticket));
    put_in(count, payload, ticket);
    break;
  case 2:
    CHECK(cordyceps_list_insert_before(list, at, payload, &ticket) == (place < MOST));
    if (place < MOST)
      put_in(place, payload, ticket);
    break;
  default:
    CHECK(cordyceps_list_insert_after(list, at, payload, &ticket) == (place < MOST));
    if (place < MOST)
      put_in(place + 1, payload, ticket);
    break;
  }
}

static void remove_any(cordyceps_list *list) {
  cordyceps_ticket at = any_ticket();
  size_t place = place_of(at);
  uint64_t payload;
  switch (random_below(4)) {
  case 0:
    CHECK(cordyceps_list_pop_front(list, &payload) == (count > 0));
    if (count > 0)
      end(0, payload);
    break;
  case 1:
    CHECK(cordyceps_list_pop_back(list, &payload) == (count > 0));
    if (count > 0)
      end(count - 1, payload);
    break;
  default:
    CHECK(cordyceps_list_remove(list, at, &payload) == (place < MOST));
    if (place < MOST)
      end(place, payload);
    break;
  }
}

static void move_any(cordyceps_list *list) {
  cordyceps_ticket at = any_ticket(), to = any_ticket();
  size_t place = place_of(at), after = place_of(to);
  bool is_pair = place < MOST && after < MOST && place != after;
  switch (random_below(3)) {
  case 0:
    CHECK(cordyceps_list_move_to_front(list, at) == (place < MOST));
    if (place < MOST)
      move(place, 0);
    break;
  case 1:
    CHECK(cordyceps_list_move_to_back(list, at) == (place < MOST));
    if (place < MOST)
      move(place, count - 1);
    break;
  default:
    CHECK(cordyceps_list_move_after(list, at, to) == is_pair);
    if (is_pair)
      move(place, place < after ? after : after + 1);
    break;
  }
}

static void read_any(cordyceps_list *list) {
  cordyceps_ticket at = any_ticket(), ticket;
  size_t place = place_of(at);
  uint64_t payload;
  CHECK(cordyceps_list_get(list, at, &payload) == (place < MOST));
  CHECK(place == MOST || payload == rows[place].payload);
  bool has_next = place < MOST && place + 1 < count, has_prev = place < MOST && place > 0;
  CHECK(cordyceps_list_next(list, at, &ticket) == has_next && (!has_next || same(ticket, rows[place + 1].ticket)));
  CHECK(cordyceps_list_prev(list, at, &ticket) == has_prev && (!has_prev || same(ticket, rows[place - 1].ticket)));
  CHECK(cordyceps_list_front(list, &ticket) == (count > 0) && (!count || same(ticket, rows[0].ticket)));
  CHECK(cordyceps_list_back(list, &ticket) == (count > 0) && (!count || same(ticket, rows[count - 1].ticket)));
  CHECK(cordyceps_list_len(list) == count);
}

static void beside_an_array(long calls) {
  cordyceps_list list = {0};
  CHECK(cordyceps_list_new(NUMBER, &list));
  for (long i = 0; i < calls; i++) {
    uint32_t which = random_below(8);
    if (which < 2 && count < MOST)
      push_any(&list, (uint64_t)i);
    else if (which < 4)
      remove_any(&list);
    else if (which < 6)
      move_any(&list);
    else
      read_any(&list);
  }
  CHECK(cordyceps_list_free(&list));
}

int main(int count_of, char **words) {
  each_answer();
  stale_tickets();
  beside_an_array(count_of > 1 ? atol(words[1]) : CALLS);
  return 0;
}
