/* Priority queues of the caller's own structs: they come out by their values, and equals as they were pushed, as in a
 * sorted array beside the queue; each at its own address; and no memory is asked for or freed, or written beside the
 * links. */
#include "nodes.h"

enum { CALLS = 1000000 };

/* What the queue has to hold, in order, each with its value; and the jobs that are not in it. */
static struct {
  struct job *job;
  cordyceps_spot spot;
  uint64_t value, id, written;
} row[JOBS];
static struct job *others[JOBS];
static size_t count, left;

/* Few values, so that many are equal, and the bounds. */
static uint64_t any_value(void) {
  uint32_t it = random_below(40);
  return it == 0 ? UINT64_MAX : it == 1 ? 0 : it < 20 ? it : (uint64_t)it << 58;
}

/* Puts a job after all whose values are not greater. */
static void put_in(struct job *job, cordyceps_spot spot, uint64_t value, uint64_t id, uint64_t written) {
  size_t place = count;
  for (; place > 0 && row[place - 1].value > value; place--)
    row[place] = row[place - 1];
  row[place].job = job, row[place].spot = spot, row[place].value = value;
  row[place].id = id, row[place].written = written;
  count++;
}

static void take_out(size_t place) {
  count--;
  memmove(row + place, row + place + 1, (count - place) * sizeof *row);
}

/* The job at a place came out as these links. */
static void comes_out(size_t place, const cordyceps_links *links) {
  struct job *it = row[place].job;
  CHECK(links == &it->links && links->value == row[place].value && links->id == row[place].id && links->home == 1);
  is_whole(it, row[place].written);
  others[left++] = it;
  take_out(place);
}

static void push_any(cordyceps_node_queue *queue) {
  size_t at = random_below((uint32_t)left);
  struct job *it = others[at];
  cordyceps_node node = {&it->links};
  cordyceps_spot spot = {NULL};
  uint64_t value = any_value();
  others[at] = others[--left];
  it->links.id = random_below(1000);
  uint64_t id = it->links.id;
  if (random_below(2)) {
    it->links.value = value;
    cordyceps_node_queue_push(queue, &node, &spot);
    CHECK(!node.at);
  } else {
    spot = cordyceps_node_queue_add(queue, &it->links, value);
  }
  CHECK(spot.at == &it->links && spot.at == cordyceps_spot_of(&it->links).at);
  put_in(it, spot, value, id, it->number);
}

static void pop_any(cordyceps_node_queue *queue) {
  cordyceps_node node = {NULL};
  cordyceps_links *links;
  if (random_below(2)) {
    CHECK(cordyceps_node_queue_pop(queue, &node) == (count > 0));
    links = node.at;
  } else {
    links = cordyceps_node_queue_take_first(queue);
  }
  CHECK((links != NULL) == (count > 0));
  if (count > 0)
    comes_out(0, links);
}

static void pop_until_any(cordyceps_node_queue *queue) {
  uint64_t most = random_below(3) && count > 0 ? row[0].value - (random_below(2) && row[0].value > 0) : any_value();
  bool is_due = count > 0 && row[0].value <= most;
  cordyceps_node node = {NULL};
  cordyceps_links *links;
  if (random_below(2)) {
    CHECK(cordyceps_node_queue_pop_until(queue, most, &node) == is_due);
    links = node.at;
  } else {
    links = cordyceps_node_queue_take_until(queue, most);
  }
  CHECK((links != NULL) == is_due);
  if (is_due)
    comes_out(0, links);
}

static void remove_any(cordyceps_node_queue *queue) {
  cordyceps_node node = {NULL};
  size_t place = random_below((uint32_t)count);
  switch (random_below(3)) {
  case 0:
    cordyceps_node_queue_remove(queue, row[place].spot, &node);
    comes_out(place, node.at);
    break;
  case 1:
    comes_out(place, cordyceps_node_queue_take_at(queue, row[place].spot));
    break;
  default:
    comes_out(place, cordyceps_node_queue_take_at(queue, cordyceps_spot_of(&row[place].job->links)));
    break;
  }
}

static void change_any(cordyceps_node_queue *queue) {
  size_t place = random_below((uint32_t)count);
  struct job *it = row[place].job;
  cordyceps_spot spot = row[place].spot;
  uint64_t id = row[place].id, written = row[place].written, value = any_value();
  cordyceps_node_queue_change(queue, spot, value);
  take_out(place);
  put_in(it, spot, value, id, written);
}

/* The caller writes to a job that is in the queue, and asks for the first value. */
static void read_any(cordyceps_node_queue *queue) {
  uint64_t value = 7;
  CHECK(cordyceps_node_queue_first(queue, &value) == (count > 0) && value == (count ? row[0].value : 7));
  if (count > 0) {
    size_t place = random_below((uint32_t)count);
    row[place].job->number = row[place].written = random_below(1000);
  }
}

static void beside_an_array(cordyceps_node_queue *queue, long calls) {
  size_t asked = requests, freed = frees;
  for (long i = 0; i < calls; i++) {
    uint32_t which = random_below(16);
    /* a while of growing, and a while of shrinking */
    bool grows = i / 500 % 2;
    if (which < (grows ? 8u : 4u) && left > 0)
      push_any(queue);
    else if (which < 9)
      pop_any(queue);
    else if (which < 11)
      pop_until_any(queue);
    else if (which < 12 && count > 0)
      remove_any(queue);
    else if (which < 14 && count > 0)
      change_any(queue);
    else
      read_any(queue);
    CHECK(cordyceps_node_queue_len(queue) == count);
  }
  while (count > 0)
    pop_any(queue);
  pop_any(queue);
  pop_until_any(queue);
  CHECK(requests == asked && frees == freed);
}

/* A queue in memory of the caller's: nothing beside it is written, and freeing it frees nothing. */
static void in_lent_memory(long calls) {
  struct {
    uint64_t before;
    cordyceps_node_queue_memory memory;
    uint64_t after;
  } lent = {1, CORDYCEPS_NODE_QUEUE_INIT, 2};
  cordyceps_node_queue queue = {&lent.memory};
  size_t asked = requests, freed = frees;
  beside_an_array(&queue, calls);
  CHECK(queue.at == &lent.memory && cordyceps_node_queue_free(&queue) && !queue.at);
  CHECK(lent.before == 1 && lent.memory.home == 1 && lent.after == 2 && requests == asked && frees == freed);
}

/* A queue that the library made is one block, which freeing it frees, once it is empty. */
static void in_made_memory(long calls) {
  cordyceps_node_queue queue = {NULL};
  struct job *it = others[0];
  size_t asked = requests, freed = frees;
  CHECK(cordyceps_node_queue_new(&queue) && queue.at && requests == asked + 1);
  beside_an_array(&queue, calls);
  cordyceps_spot spot = cordyceps_node_queue_add(&queue, &it->links, 5);
  void *at = queue.at;
  CHECK(!cordyceps_node_queue_free(&queue) && queue.at == at && cordyceps_node_queue_len(&queue) == 1);
  CHECK(cordyceps_node_queue_take_at(&queue, spot) == &it->links && frees == freed);
  CHECK(cordyceps_node_queue_free(&queue) && !queue.at && requests == asked + 1 && frees == freed + 1);
}

/* The macro is what the library takes for an empty queue. */
static void macro_is_empty_queue(void) {
  cordyceps_node_queue_memory lent = CORDYCEPS_NODE_QUEUE_INIT;
  cordyceps_node_queue made = {NULL};
  CHECK(cordyceps_node_queue_new(&made));
  CHECK(!memcmp(made.at, &lent, offsetof(cordyceps_node_queue_memory, home)) && lent.home == 1);
  CHECK(((cordyceps_node_queue_memory *)made.at)->home == 0);
  CHECK(cordyceps_node_queue_free(&made));
}

/* More nodes than the queue has lines: 10,000 in a queue of 64 lines come out in order. */
static void many(void) {
  enum { MANY = 10000 };
  static struct job jobs[MANY];
  cordyceps_node_queue_memory memory = CORDYCEPS_NODE_QUEUE_INIT;
  cordyceps_node_queue queue = {&memory};
  const struct job *last = NULL, *it;
  cordyceps_links *links;
  size_t popped = 0;
  for (size_t i = 0; i < MANY; i++) {
    make_job(&jobs[i], i);
    cordyceps_node_queue_add(&queue, &jobs[i].links, random_below(100));
    if (i % 16 == 15)
      CHECK(cordyceps_node_queue_first(&queue, &(uint64_t){0}));
  }
  for (; (links = cordyceps_node_queue_take_first(&queue)); last = it, popped++) {
    it = cordyceps_container(links, struct job, links);
    is_whole(it, it->number);
    CHECK(!last || last->links.value < it->links.value ||
          (last->links.value == it->links.value && last->number < it->number));
  }
  CHECK(popped == MANY && cordyceps_node_queue_free(&queue));
}

int main(int argc, char **argv) {
  struct jobs jobs;
  long calls = argc > 1 ? atol(argv[1]) : CALLS;
  make_jobs(&jobs);
  for (size_t i = 0; i < JOBS; i++)
    others[left++] = jobs.all[i];
  macro_is_empty_queue();
  in_lent_memory(calls);
  in_made_memory(calls / 4);
  many();
  CHECK(left == JOBS);
  for (size_t i = 0; i < JOBS; i++)
    jobs.all[i]->number = i;
  end_jobs(&jobs);
  return 0;
}
