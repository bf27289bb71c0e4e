/* A backtrace goes through the library: from the allocator, as tools for leaks and profiles take one, to its caller. */
#include <unwind.h>

#include "checked.h"
#include "cordyceps_heap.h"

/* The address to which `makes_timers` returns, and in how many backtraces it was. */
static uintptr_t wanted;
static unsigned found;

static _Unwind_Reason_Code look(struct _Unwind_Context *frame, void *is_found) {
  if ((uintptr_t)_Unwind_GetIP(frame) == wanted)
    *(bool *)is_found = true;
  return _URC_NO_REASON;
}

static void look_back(void) {
  bool is_found = false;
  _Unwind_Backtrace(look, &is_found);
  found += is_found;
}

void *cordyceps_malloc(size_t bytes) {
  look_back();
  return malloc(bytes);
}

void *cordyceps_realloc(void *block, size_t bytes) {
  look_back();
  return realloc(block, bytes);
}

void cordyceps_free(void *block) {
  look_back();
  free(block);
}

__attribute__((noinline)) static void makes_timers(void) {
  cordyceps_timers timers = {0};
  cordyceps_ticket ticket;
  wanted = (uintptr_t)__builtin_extract_return_addr(__builtin_return_address(0));
  CHECK(cordyceps_timers_new(0, &timers));
  /* a timer takes a table of tickets, which grows, and a node */
  for (unsigned i = 0; i < 100; i++)
    CHECK(cordyceps_timers_start(&timers, i, i, &ticket));
  CHECK(cordyceps_timers_free(&timers));
}

int main(void) {
  makes_timers();
  CHECK(found > 2 * 101);
  return 0;
}
