/* A run queue to start a scheduler from, without a heap. Tasks lie in a static array, and each is its own node: in the
 * run queue while it can run, in the timers while it sleeps, and in the wait list of a device while another task uses
 * that. A task in any of these is killed in O(1). No memory is asked for.
 *
 * The clock is simulated, so each run is the same. Eight tasks ask for the device, use it, and rest, 25 times each; the
 * task 5 is killed at tick 500. The program ends with status 1 if two tasks use the device at a time, if one gets it
 * before another that asked first, if one wakes too early or too late, or if the numbers in the end are not these:
 *
 *     run_queue: 7 of 8 tasks ended, 1 was killed; 565 turns, 887 ticks; the device was in use for 763 */
#include <stdio.h>
#include <stdlib.h>

#include "cordyceps.h"

enum { TASKS = 8, ROUNDS = 25, KILLED = 5, KILLED_AT = 500, TURNS = 565, TICKS = 887, IN_USE = 763 };

enum state { READY, RUNNING, SLEEPING, WAITING, ENDED, STOPPED };
enum step { ASK, USE, GIVE_BACK };

struct task {
  cordyceps_links links;
  cordyceps_spot spot; /* where the task is, while it is in a list or in the timers */
  enum state state;
  enum step next;
  unsigned number, rounds;
  uint64_t asked; /* how many tasks had asked for the device, with this one */
};

static struct task tasks[TASKS];

static cordyceps_node_list_memory ready_memory = CORDYCEPS_NODE_LIST_INIT, waiting_memory = CORDYCEPS_NODE_LIST_INIT;
static cordyceps_node_queue_memory sleeping_memory = CORDYCEPS_NODE_QUEUE_INIT;
static cordyceps_node_list ready = {&ready_memory}, waiting = {&waiting_memory};
static cordyceps_node_queue sleeping = {&sleeping_memory};

static struct task *user; /* of the device, or NULL */
static uint64_t now, used_since, in_use, asked, served;
static unsigned turns;

static void ends_unless(bool is_well, const char *what) {
  if (!is_well) {
    fprintf(stderr, "run_queue: %s\n", what);
    exit(1);
  }
}

static struct task *task_of(cordyceps_links *links) { return cordyceps_container(links, struct task, links); }

static void make_ready(struct task *it) {
  it->state = READY;
  it->spot = cordyceps_node_list_add_last(&ready, &it->links);
}

static void put_to_sleep(struct task *it, uint64_t ticks) {
  it->state = SLEEPING;
  it->spot = cordyceps_node_queue_add(&sleeping, &it->links, now + ticks);
}

/* Makes the tasks ready whose deadlines have come. */
static void wake_all(void) {
  cordyceps_links *links;
  uint64_t first;
  while ((links = cordyceps_node_queue_take_until(&sleeping, now))) {
    ends_unless(links->value <= now && task_of(links)->state == SLEEPING, "a task woke too early");
    make_ready(task_of(links));
  }
  ends_unless(!cordyceps_node_queue_first(&sleeping, &first) || first > now, "a task did not wake");
}

static void get_device(struct task *it) {
  ends_unless(it->asked > served, "a task got the device before another that asked first");
  user = it;
  used_since = now;
  served = it->asked;
  it->next = USE;
}

/* Hands the device to the first task that waits for it. */
static void give_device_back(void) {
  cordyceps_links *links = cordyceps_node_list_take_first(&waiting);
  in_use += now - used_since;
  user = NULL;
  if (links) {
    get_device(task_of(links));
    make_ready(task_of(links));
  }
}

static void ask_for_device(struct task *it) {
  it->asked = ++asked;
  if (!user) {
    get_device(it);
    make_ready(it);
  } else {
    it->state = WAITING;
    it->spot = cordyceps_node_list_add_last(&waiting, &it->links);
  }
}

/* What a task does in its turn: one step, and it says what it needs for the next. */
static void take_turn(struct task *it) {
  turns++;
  switch (it->next) {
  case ASK:
    ask_for_device(it);
    break;
  case USE:
    ends_unless(user == it, "two tasks use the device");
    it->next = GIVE_BACK;
    put_to_sleep(it, it->number % 4 + 1);
    break;
  case GIVE_BACK:
    ends_unless(user == it, "two tasks use the device");
    give_device_back();
    it->next = ASK;
    if (++it->rounds == ROUNDS)
      it->state = ENDED;
    else
      put_to_sleep(it, 3 * it->number);
    break;
  }
}

/* Takes a task from where it is. */
static void kill_task(struct task *it) {
  cordyceps_links *links = &it->links;
  if (it->state == READY)
    links = cordyceps_node_list_take_at(&ready, it->spot);
  else if (it->state == SLEEPING)
    links = cordyceps_node_queue_take_at(&sleeping, it->spot);
  else if (it->state == WAITING)
    links = cordyceps_node_list_take_at(&waiting, it->spot);
  ends_unless(links == &it->links, "another task was killed");
  it->state = STOPPED;
  if (user == it)
    give_device_back();
}

/* Runs one task that is ready for a tick, or else passes the time until one wakes. false: none will. */
static bool go_on(void) {
  cordyceps_links *links;
  wake_all();
  if ((links = cordyceps_node_list_take_first(&ready))) {
    task_of(links)->state = RUNNING;
    take_turn(task_of(links));
    now++;
    return true;
  }
  return cordyceps_node_queue_first(&sleeping, &now);
}

int main(void) {
  unsigned count[STOPPED + 1] = {0};
  for (unsigned i = 0; i < TASKS; i++) {
    tasks[i] = (struct task){.links = CORDYCEPS_LINKS_INIT, .next = ASK, .number = i};
    make_ready(&tasks[i]);
  }
  while (go_on())
    if (now >= KILLED_AT && tasks[KILLED].state < ENDED)
      kill_task(&tasks[KILLED]);
  for (const struct task *it = tasks; it < tasks + TASKS; it++) {
    ends_unless(it->state == (it->number == KILLED ? STOPPED : ENDED), "a task is left");
    ends_unless(it->state == STOPPED || it->rounds == ROUNDS, "a task lost a round");
    count[it->state]++;
  }
  ends_unless(!user && cordyceps_node_list_free(&waiting), "a task waits");
  ends_unless(cordyceps_node_list_free(&ready) && cordyceps_node_queue_free(&sleeping), "a task is left");
  printf("run_queue: %u of %d tasks ended, %u was killed; ", count[ENDED], TASKS, count[STOPPED]);
  printf("%u turns, %u ticks; the device was in use for %u\n", turns, (unsigned)now, (unsigned)in_use);
  ends_unless(turns == TURNS && now == TICKS && in_use == IN_USE, "the numbers are others");
  return 0;
}
