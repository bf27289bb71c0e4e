/* Timers come out by their deadlines, and equals as they were started; tickets reach those that run, and no others. */
#include "checked.h"

enum { MANY = 5000 };

static int compare(const void *a, const void *b) {
  uint64_t x = *(const uint64_t *)a, y = *(const uint64_t *)b;
  return x < y ? -1 : x > y;
}

static void each_answer(void) {
  cordyceps_timers timers = {0};
  cordyceps_ticket ticket;
  cordyceps_fired fired = {7, 8};
  CHECK(cordyceps_timers_new(0, &timers) && timers.at);
  CHECK(!cordyceps_timers_pop_due(&timers, 0, &fired));
  CHECK(fired.deadline == 7 && fired.payload == 8);
  CHECK(cordyceps_timers_start(&timers, 30, 1, &ticket));
  CHECK(cordyceps_timers_start(&timers, 10, 2, &ticket));
  CHECK(cordyceps_timers_start(&timers, 20, 3, &ticket));
  CHECK(cordyceps_timers_start(&timers, 10, 4, &ticket));
  CHECK(cordyceps_timers_len(&timers) == 4);
  CHECK(!cordyceps_timers_pop_due(&timers, 9, &fired));
  CHECK(fired.deadline == 7 && fired.payload == 8);
  CHECK(cordyceps_timers_pop_due(&timers, 25, &fired) && fired.deadline == 10 && fired.payload == 2);
  CHECK(cordyceps_timers_pop_due(&timers, 25, &fired) && fired.deadline == 10 && fired.payload == 4);
  CHECK(cordyceps_timers_pop_due(&timers, 25, &fired) && fired.deadline == 20 && fired.payload == 3);
  CHECK(!cordyceps_timers_pop_due(&timers, 25, &fired));
  CHECK(cordyceps_timers_len(&timers) == 1);
  CHECK(cordyceps_timers_free(&timers) && !timers.at);
}

/* A timer whose deadline has passed fires at once, with the deadline that it was started with. */
static void passed_deadline(void) {
  cordyceps_timers timers = {0};
  cordyceps_ticket ticket;
  cordyceps_fired fired = {0, 0};
  CHECK(cordyceps_timers_new(0, &timers));
  CHECK(!cordyceps_timers_pop_due(&timers, 100, &fired));
  CHECK(cordyceps_timers_start(&timers, 100, 1, &ticket));
  CHECK(cordyceps_timers_start(&timers, 40, 2, &ticket));
  CHECK(!cordyceps_timers_pop_due(&timers, 99, &fired));
  CHECK(cordyceps_timers_pop_due(&timers, 100, &fired) && fired.deadline == 100 && fired.payload == 1);
  CHECK(cordyceps_timers_pop_due(&timers, 100, &fired) && fired.deadline == 40 && fired.payload == 2);
  CHECK(cordyceps_timers_start(&timers, UINT64_MAX, UINT64_MAX, &ticket));
  CHECK(!cordyceps_timers_pop_due(&timers, UINT64_MAX - 1, &fired));
  CHECK(cordyceps_timers_pop_due(&timers, UINT64_MAX, &fired));
  CHECK(fired.deadline == UINT64_MAX && fired.payload == UINT64_MAX);
  CHECK(cordyceps_timers_free(&timers));
}

static void beside_a_sorted_array(void) {
  static uint64_t due[MANY], sorted[MANY];
  cordyceps_timers timers = {0};
  cordyceps_ticket ticket;
  cordyceps_fired fired;
  uint64_t before = 0;
  CHECK(cordyceps_timers_new(0, &timers));
  srand(1);
  for (size_t i = 0; i < MANY; i++) {
    due[i] = sorted[i] = (uint64_t)rand() % 10000;
    CHECK(cordyceps_timers_start(&timers, due[i], i, &ticket));
  }
  qsort(sorted, MANY, sizeof *sorted, compare);
  for (size_t i = 0; i < MANY - 100; i++) {
    CHECK(cordyceps_timers_pop_due(&timers, UINT64_MAX, &fired));
    CHECK(fired.deadline == sorted[i] && due[fired.payload] == fired.deadline);
    CHECK(i == 0 || sorted[i] != sorted[i - 1] || before < fired.payload);
    before = fired.payload;
  }
  CHECK(cordyceps_timers_len(&timers) == 100);
  CHECK(cordyceps_timers_free(&timers));
}

static void by_ticket(void) {
  cordyceps_timers timers = {0};
  cordyceps_ticket first, second, third, none = {0};
  cordyceps_fired fired = {7, 8};
  CHECK(cordyceps_timers_new(5, &timers));
  CHECK(cordyceps_timers_start(&timers, 10, 1, &first) && cordyceps_timers_start(&timers, 20, 2, &second));
  CHECK(first.collection == 5 && second.collection == 5 && first.number == 1 && second.number == 2);
  CHECK(!cordyceps_timers_stop(&timers, none, &fired) && fired.deadline == 7 && fired.payload == 8);
  CHECK(cordyceps_timers_stop(&timers, first, &fired) && fired.deadline == 10 && fired.payload == 1);
  /* a ticket is of no use twice, also where its slot has been taken again */
  CHECK(!cordyceps_timers_stop(&timers, first, &fired) && !cordyceps_timers_restart(&timers, first, 1));
  CHECK(cordyceps_timers_start(&timers, 30, 3, &third) && third.slot == first.slot && third.number == 3);
  CHECK(!cordyceps_timers_stop(&timers, first, &fired) && fired.payload == 1);
  /* one that is started again keeps its ticket, and comes after equals */
  CHECK(cordyceps_timers_restart(&timers, second, 30) && cordyceps_timers_len(&timers) == 2);
  CHECK(!cordyceps_timers_pop_due(&timers, 29, &fired));
  CHECK(cordyceps_timers_restart(&timers, second, 5));
  CHECK(cordyceps_timers_pop_due(&timers, 29, &fired) && fired.deadline == 5 && fired.payload == 2);
  CHECK(!cordyceps_timers_stop(&timers, second, &fired));
  CHECK(cordyceps_timers_pop_due(&timers, 30, &fired) && fired.deadline == 30 && fired.payload == 3);
  CHECK(!cordyceps_timers_restart(&timers, third, 40) && cordyceps_timers_len(&timers) == 0);
  CHECK(cordyceps_timers_free(&timers));
}

static void ticket_of_another(void) {
  cordyceps_timers own = {0}, other = {0};
  cordyceps_ticket ticket, theirs;
  cordyceps_fired fired;
  CHECK(cordyceps_timers_new(1, &own) && cordyceps_timers_new(2, &other));
  CHECK(cordyceps_timers_start(&own, 1, 1, &ticket) && cordyceps_timers_start(&other, 1, 1, &theirs));
  CHECK(ticket.slot == theirs.slot && ticket.number == theirs.number);
  CHECK(!cordyceps_timers_stop(&own, theirs, &fired) && !cordyceps_timers_restart(&other, ticket, 2));
  CHECK(cordyceps_timers_len(&own) == 1 && cordyceps_timers_len(&other) == 1);
  CHECK(cordyceps_timers_free(&other) && cordyceps_timers_free(&own));
}

static void by_spot(void) {
  cordyceps_timers timers = {0};
  cordyceps_spot first, second;
  cordyceps_ticket ticket;
  cordyceps_fired fired;
  CHECK(cordyceps_timers_new(0, &timers));
  CHECK(cordyceps_timers_start_unchecked(&timers, 10, 1, &first));
  CHECK(cordyceps_timers_start_unchecked(&timers, 20, 2, &second));
  CHECK(cordyceps_timers_start(&timers, 15, 3, &ticket) && ticket.number == 1);
  CHECK(cordyceps_timers_restart_unchecked(&timers, first, 30) && cordyceps_timers_len(&timers) == 3);
  CHECK(cordyceps_timers_stop_unchecked(&timers, second, &fired) && fired.deadline == 20 && fired.payload == 2);
  CHECK(cordyceps_timers_pop_due(&timers, 30, &fired) && fired.deadline == 15 && fired.payload == 3);
  CHECK(cordyceps_timers_pop_due(&timers, 30, &fired) && fired.deadline == 30 && fired.payload == 1);
  CHECK(!cordyceps_timers_stop(&timers, ticket, &fired) && cordyceps_timers_len(&timers) == 0);
  CHECK(cordyceps_timers_free(&timers));
}

/* What is said to be no time is not one at which a timer fires, and those who wait for it get there. */
static void until_the_next(void) {
  cordyceps_timers timers = {0};
  cordyceps_ticket ticket;
  cordyceps_fired fired;
  uint64_t until = 7;
  unsigned wakes = 0;
  CHECK(cordyceps_timers_new(0, &timers));
  CHECK(!cordyceps_timers_not_before(&timers, &until) && until == 7);
  CHECK(cordyceps_timers_start(&timers, 1000, 1, &ticket));
  CHECK(cordyceps_timers_not_before(&timers, &until) && until == 512);
  for (; !cordyceps_timers_pop_due(&timers, until, &fired); wakes++)
    CHECK(cordyceps_timers_not_before(&timers, &until) && until <= 1000);
  CHECK(fired.deadline == 1000 && until == 1000 && wakes <= 64);
  CHECK(cordyceps_timers_free(&timers));
}

enum { RUNNING = 64 };

/* Calls by chance, beside an array that is searched. */
static void beside_an_array(size_t calls) {
  struct timer { cordyceps_ticket ticket; uint64_t deadline, due, order; bool runs; } all[RUNNING] = {0};
  cordyceps_timers timers = {0};
  cordyceps_fired fired;
  uint64_t now = 0, order = 0;
  size_t len = 0;
  CHECK(cordyceps_timers_new(3, &timers));
  srand(2);
  for (size_t i = 0; i < calls; i++) {
    struct timer *it = &all[rand() % RUNNING], *first = NULL;
    uint64_t deadline = now + (uint64_t)(rand() % 200) - (uint64_t)(now > 50 ? 50 : 0);
    uint64_t due = deadline > now ? deadline : now;
    switch (rand() % 4) {
    case 0:
      if (it->runs)
        break;
      CHECK(cordyceps_timers_start(&timers, deadline, (uint64_t)(it - all), &it->ticket));
      it->deadline = deadline, it->due = due, it->order = ++order, it->runs = true, len++;
      break;
    case 1:
      CHECK(cordyceps_timers_stop(&timers, it->ticket, &fired) == it->runs);
      CHECK(!it->runs || (fired.deadline == it->deadline && fired.payload == (uint64_t)(it - all)));
      len -= it->runs;
      it->runs = false;
      break;
    case 2:
      CHECK(cordyceps_timers_restart(&timers, it->ticket, deadline) == it->runs);
      it->deadline = deadline, it->due = due, it->order = ++order;
      break;
    default:
      for (struct timer *x = all; x < all + RUNNING; x++)
        if (x->runs && (!first || x->due < first->due || (x->due == first->due && x->order < first->order)))
          first = x;
      uint64_t until = now + (uint64_t)(rand() % 20);
      bool is_due = first && first->due <= until;
      CHECK(cordyceps_timers_pop_due(&timers, until, &fired) == is_due);
      now = is_due ? first->due : until;
      if (is_due) {
        CHECK(fired.deadline == first->deadline && fired.payload == (uint64_t)(first - all));
        first->runs = false, len--;
      }
    }
    CHECK(cordyceps_timers_len(&timers) == len);
  }
  CHECK(cordyceps_timers_free(&timers));
}

/* The argument says how many calls by chance are made. */
int main(int argc, char **argv) {
  each_answer();
  passed_deadline();
  by_ticket();
  ticket_of_another();
  by_spot();
  until_the_next();
  beside_a_sorted_array();
  beside_an_array(argc > 1 ? strtoul(argv[1], NULL, 10) : 1000000);
  return 0;
}
