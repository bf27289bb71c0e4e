/* Without a C library and without a heap: jobs, a list and a queue of them lie in static memory, and each call of
 * malloc, realloc or free ends the program with status 1. */
#include "bare.h"

enum { JOBS = 200, ROUNDS = 100 };

static void *ends(void) {
  ends_unless(false, "freestanding_nodes.c: the allocator was called\n");
  return NULL;
}

void *malloc(size_t size) {
  (void)size;
  return ends();
}

void *realloc(void *block, size_t size) {
  (void)block, (void)size;
  return ends();
}

void free(void *block) {
  (void)block;
  ends();
}

struct job {
  uint64_t number;
  cordyceps_links links;
  uint64_t runs;
};

static struct job jobs[JOBS];
static cordyceps_node_list_memory list_memory = CORDYCEPS_NODE_LIST_INIT;
static cordyceps_node_queue_memory queue_memory = CORDYCEPS_NODE_QUEUE_INIT;
static cordyceps_node_list list = {&list_memory};
static cordyceps_node_queue queue = {&queue_memory};

static struct job *job_of(cordyceps_links *links) { return cordyceps_container(links, struct job, links); }

static void make(void) {
  for (uint64_t i = 0; i < JOBS; i++) {
    jobs[i] = (struct job){i, CORDYCEPS_LINKS_INIT, 0};
    jobs[i].links.id = ~i;
    cordyceps_spot spot = cordyceps_node_list_add_last(&list, &jobs[i].links);
    CHECK(spot.at == &jobs[i].links && cordyceps_node_list_len(&list) == i + 1);
  }
}

/* Moves every job from the list to the queue, by a value in which neighbours are equal and the rest is turned. */
static void to_queue(void) {
  cordyceps_links *links;
  for (uint64_t i = 0; (links = cordyceps_node_list_take_first(&list)); i++) {
    CHECK(job_of(links)->number == i && links->id == ~i);
    cordyceps_node_queue_add(&queue, links, (JOBS - 1 - i) / 2);
  }
  CHECK(cordyceps_node_list_len(&list) == 0 && cordyceps_node_queue_len(&queue) == JOBS);
}

/* Takes the jobs that are due at each time, and puts the jobs in the list in the order in which they were made. */
static void to_list(void) {
  for (uint64_t now = 0; now < JOBS / 2; now++) {
    /* of equal values the one pushed first comes first */
    uint64_t number = JOBS - 2 - 2 * now, first = JOBS;
    CHECK(cordyceps_node_queue_first(&queue, &first) && first == now);
    struct job *one = job_of(cordyceps_node_queue_take_until(&queue, now));
    struct job *other = job_of(cordyceps_node_queue_take_until(&queue, now));
    CHECK(one->number == number && other->number == number + 1 && !cordyceps_node_queue_take_until(&queue, now));
    cordyceps_node_list_add_first(&list, &other->links);
    cordyceps_node_list_add_first(&list, &one->links);
    one->runs++, other->runs++;
  }
  CHECK(cordyceps_node_queue_len(&queue) == 0 && cordyceps_node_list_len(&list) == JOBS);
}

static void run(void) {
  make();
  for (int i = 0; i < ROUNDS; i++) {
    to_queue();
    to_list();
  }
  CHECK(!cordyceps_node_list_free(&list) && list.at == &list_memory);
  for (uint64_t i = 0; i < JOBS; i++) {
    CHECK(cordyceps_node_list_take_first(&list) == &jobs[i].links && jobs[i].links.home == 1);
    CHECK(jobs[i].number == i && jobs[i].runs == ROUNDS);
  }
  CHECK(!cordyceps_node_list_take_first(&list) && !cordyceps_node_queue_take_first(&queue));
  CHECK(cordyceps_node_list_free(&list) && cordyceps_node_queue_free(&queue) && !list.at && !queue.at);
  system_call(EXIT, 0, NULL, 0);
}
