/* Lists of the caller's own structs: a list has the order of an array beside it, through each call; each node comes out
 * as it went in, at its own address; and no memory is asked for or freed, or written beside the links. */
#include "nodes.h"

enum { CALLS = 1000000 };

/* What the list has to hold, in order; the jobs that are not in it; and the spot, the value and the id of each job. */
static struct job *row[JOBS], *others[JOBS];
static size_t count, left;
static struct {
  cordyceps_spot spot;
  uint64_t value, id, written;
} known[JOBS];
static struct jobs *of;

/* Which of the jobs it is. */
static size_t index_of(const struct job *it) {
  size_t i = 0;
  while (of->all[i] != it)
    i++;
  return i;
}

static cordyceps_spot spot_of(size_t place) { return known[index_of(row[place])].spot; }

static void put_in(size_t place, struct job *it, cordyceps_spot spot) {
  CHECK(spot.at == &it->links && cordyceps_spot_of(&it->links).at == spot.at);
  known[index_of(it)].spot = spot;
  memmove(row + place + 1, row + place, (count - place) * sizeof *row);
  row[place] = it;
  count++;
}

static struct job *take_out(size_t place) {
  struct job *it = row[place];
  count--;
  memmove(row + place, row + place + 1, (count - place) * sizeof *row);
  return it;
}

/* The job at a place came out as these links. */
static void comes_out(size_t place, const cordyceps_links *links) {
  struct job *it = take_out(place);
  size_t i = index_of(it);
  CHECK(links == &it->links && cordyceps_container(links, struct job, links) == it);
  CHECK(links->value == known[i].value && links->id == known[i].id && links->home == 1);
  is_whole(it, known[i].written);
  others[left++] = it;
}

static struct job *any_other(void) {
  struct job *it;
  size_t at = random_below((uint32_t)left), i;
  it = others[at];
  others[at] = others[--left];
  i = index_of(it);
  it->links.value = known[i].value = (uint64_t)random_below(1000) << 40;
  it->links.id = known[i].id = random_below(1000);
  return it;
}

static void push_any(cordyceps_node_list *list) {
  struct job *it = any_other();
  cordyceps_node node = {&it->links};
  cordyceps_spot spot = {NULL};
  switch (random_below(4)) {
  case 0:
    cordyceps_node_list_push_front(list, &node, &spot);
    CHECK(!node.at);
    put_in(0, it, spot);
    break;
  case 1:
    cordyceps_node_list_push_back(list, &node, &spot);
    CHECK(!node.at);
    put_in(count, it, spot);
    break;
  case 2:
    put_in(0, it, cordyceps_node_list_add_first(list, &it->links));
    break;
  default:
    put_in(count, it, cordyceps_node_list_add_last(list, &it->links));
    break;
  }
}

static void insert_any(cordyceps_node_list *list) {
  struct job *it = any_other();
  cordyceps_node node = {&it->links};
  cordyceps_spot spot = {NULL};
  size_t place = random_below((uint32_t)count);
  if (random_below(2)) {
    cordyceps_node_list_insert_before(list, spot_of(place), &node, &spot);
    put_in(place, it, spot);
  } else {
    cordyceps_node_list_insert_after(list, spot_of(place), &node, &spot);
    put_in(place + 1, it, spot);
  }
  CHECK(!node.at);
}

static void pop_any(cordyceps_node_list *list) {
  cordyceps_node node = {NULL};
  cordyceps_links *links;
  bool is_first = random_below(2), has_one = count > 0;
  size_t place = is_first || !has_one ? 0 : count - 1;
  if (random_below(2)) {
    bool is_popped = is_first ? cordyceps_node_list_pop_front(list, &node) : cordyceps_node_list_pop_back(list, &node);
    CHECK(is_popped == has_one);
    links = node.at;
  } else {
    links = is_first ? cordyceps_node_list_take_first(list) : cordyceps_node_list_take_last(list);
  }
  CHECK((links != NULL) == has_one);
  if (has_one)
    comes_out(place, links);
}

static void remove_any(cordyceps_node_list *list) {
  cordyceps_node node = {NULL};
  size_t place = random_below((uint32_t)count);
  switch (random_below(3)) {
  case 0:
    cordyceps_node_list_remove(list, spot_of(place), &node);
    comes_out(place, node.at);
    break;
  case 1:
    comes_out(place, cordyceps_node_list_take_at(list, spot_of(place)));
    break;
  default:
    comes_out(place, cordyceps_node_list_take_at(list, cordyceps_spot_of(&row[place]->links)));
    break;
  }
}

static void move_any(cordyceps_node_list *list) {
  size_t place = random_below((uint32_t)count);
  cordyceps_spot spot = spot_of(place);
  struct job *it = take_out(place);
  if (random_below(2)) {
    cordyceps_node_list_move_to_front(list, spot);
    put_in(0, it, spot);
  } else {
    cordyceps_node_list_move_to_back(list, spot);
    put_in(count, it, spot);
  }
}

/* The caller writes to a job that is in the list, and reads what is beside it. */
static void read_any(cordyceps_node_list *list) {
  size_t place = random_below((uint32_t)count), i = index_of(row[place]);
  cordyceps_spot spot = {&count};
  row[place]->number = known[i].written = random_below(1000);
  CHECK(cordyceps_node_list_next(list, spot_of(place), &spot) == (place + 1 < count));
  CHECK(spot.at == (place + 1 < count ? spot_of(place + 1).at : &count));
  spot.at = &count;
  CHECK(cordyceps_node_list_prev(list, spot_of(place), &spot) == (place > 0));
  CHECK(spot.at == (place > 0 ? spot_of(place - 1).at : &count));
}

/* The list has the nodes of the array, by each way through it. */
static void has_all(cordyceps_node_list *list) {
  cordyceps_spot at = {&count};
  size_t i = 0;
  CHECK(cordyceps_node_list_len(list) == count);
  CHECK(cordyceps_node_list_front(list, &at) == (count > 0) && at.at == (count ? spot_of(0).at : &count));
  for (bool more = count > 0; more; more = cordyceps_node_list_next(list, at, &at), i++)
    CHECK(i < count && at.at == spot_of(i).at && cordyceps_container(at.at, struct job, links) == row[i]);
  CHECK(i == count);
  at.at = &count;
  CHECK(cordyceps_node_list_back(list, &at) == (count > 0) && at.at == (count ? spot_of(count - 1).at : &count));
  for (bool more = count > 0; more; more = cordyceps_node_list_prev(list, at, &at), i--)
    CHECK(i > 0 && at.at == spot_of(i - 1).at);
  CHECK(i == 0);
  for (i = 0; i < JOBS; i++)
    is_whole(of->all[i], known[i].written);
}

static void beside_an_array(cordyceps_node_list *list, long calls) {
  size_t asked = requests, freed = frees;
  for (long i = 0; i < calls; i++) {
    uint32_t which = random_below(16);
    /* a while of growing, and a while of shrinking */
    bool grows = i / 500 % 2;
    if (which < (grows ? 5u : 3u) && left > 0)
      push_any(list);
    else if (which < 6 && left > 0 && count > 0)
      insert_any(list);
    else if (which < (grows ? 7u : 9u))
      pop_any(list);
    else if (which < 11 && count > 0)
      remove_any(list);
    else if (which < 13 && count > 0)
      move_any(list);
    else if (which < 15 && count > 0)
      read_any(list);
    else
      has_all(list);
  }
  while (count > 0)
    pop_any(list);
  has_all(list);
  CHECK(requests == asked && frees == freed);
}

/* A list in memory of the caller's: nothing beside it is written, and freeing it frees nothing. */
static void in_lent_memory(long calls) {
  struct {
    uint64_t before;
    cordyceps_node_list_memory memory;
    uint64_t after;
  } lent = {1, CORDYCEPS_NODE_LIST_INIT, 2};
  cordyceps_node_list list = {&lent.memory};
  size_t asked = requests, freed = frees;
  beside_an_array(&list, calls);
  CHECK(list.at == &lent.memory && cordyceps_node_list_free(&list) && !list.at);
  CHECK(lent.before == 1 && lent.memory.home == 1 && lent.after == 2 && requests == asked && frees == freed);
}

/* A list that the library made is one block, which freeing it frees, once it is empty. */
static void in_made_memory(long calls) {
  cordyceps_node_list list = {NULL};
  struct job *it = any_other();
  size_t asked = requests, freed = frees;
  CHECK(cordyceps_node_list_new(&list) && list.at && requests == asked + 1);
  beside_an_array(&list, calls);
  cordyceps_spot spot = cordyceps_node_list_add_last(&list, &it->links);
  void *at = list.at;
  CHECK(!cordyceps_node_list_free(&list) && list.at == at && cordyceps_node_list_len(&list) == 1);
  CHECK(cordyceps_node_list_take_at(&list, spot) == &it->links && frees == freed);
  CHECK(cordyceps_node_list_free(&list) && !list.at && requests == asked + 1 && frees == freed + 1);
  others[left++] = it;
}

/* The macro is what the library takes for an empty list. */
static void macro_is_empty_list(void) {
  cordyceps_node_list_memory lent = CORDYCEPS_NODE_LIST_INIT;
  cordyceps_node_list made = {NULL};
  CHECK(cordyceps_node_list_new(&made));
  CHECK(!memcmp(made.at, &lent, offsetof(cordyceps_node_list_memory, home)) && lent.home == 1);
  CHECK(((cordyceps_node_list_memory *)made.at)->home == 0);
  CHECK(cordyceps_node_list_free(&made));
}

int main(int argc, char **argv) {
  struct jobs jobs;
  long calls = argc > 1 ? atol(argv[1]) : CALLS;
  make_jobs(&jobs);
  of = &jobs;
  for (size_t i = 0; i < JOBS; i++) {
    known[i].written = i;
    others[left++] = jobs.all[i];
  }
  macro_is_empty_list();
  in_lent_memory(calls);
  in_made_memory(calls / 4);
  CHECK(left == JOBS);
  for (size_t i = 0; i < JOBS; i++)
    jobs.all[i]->number = i;
  end_jobs(&jobs);
  return 0;
}
