/* The caller's own structs in inboxes and piles: each comes back at its own address with its value and its id, also
 * beside nodes that the library made, and goes from one kind of collection to the next as it is. From when the inboxes
 * and the piles are there, no memory is asked for. Threads send nodes through an inbox, and get them back by a pile. */
#include <pthread.h>
#include <sched.h>

#include "nodes.h"

enum { ROOMS = 5, SENDERS = 4, AROUND = 32 };

/* The job came out of a collection as these links. */
static void is_job(const cordyceps_links *links, const struct job *it, uint64_t value, uint64_t id) {
  CHECK(links == &it->links && links->value == value && links->id == id && links->home == 1);
  is_whole(it, it->number);
}

static void inbox_nodes(struct job **jobs) {
  cordyceps_inbox inbox = {NULL}, nothing = {NULL};
  cordyceps_node node = {&jobs[0]->links}, out = {NULL};
  CHECK(cordyceps_inbox_send_node(&nothing, &node) == CORDYCEPS_NOTHING && node.at == &jobs[0]->links);
  CHECK(cordyceps_inbox_receive_node(&nothing, &out) == CORDYCEPS_NOTHING && !out.at);
  CHECK(cordyceps_inbox_new(ROOMS, &inbox));
  size_t asked = requests, freed = frees;
  CHECK(cordyceps_inbox_receive_node(&inbox, &out) == CORDYCEPS_EMPTY && !out.at);
  for (int round = 0; round < 3; round++) {
    for (uint64_t i = 0; i <= ROOMS; i++) {
      node.at = &jobs[i]->links;
      node.at->value = ~i, node.at->id = i;
      uint32_t answer = cordyceps_inbox_send_node(&inbox, &node);
      /* the one that is refused stays in its handle */
      CHECK(i < ROOMS ? answer == CORDYCEPS_DONE && !node.at : answer == CORDYCEPS_FULL);
    }
    is_job(node.at, jobs[ROOMS], ~(uint64_t)ROOMS, ROOMS);
    for (uint64_t i = 0; i < ROOMS; i++, out.at = NULL) {
      CHECK(cordyceps_inbox_receive_node(&inbox, &out) == CORDYCEPS_DONE);
      is_job(out.at, jobs[i], ~i, i);
    }
    CHECK(cordyceps_inbox_receive_node(&inbox, &out) == CORDYCEPS_EMPTY && !out.at);
    CHECK(cordyceps_inbox_send_node(&inbox, &node) == CORDYCEPS_DONE && !node.at);
    CHECK(cordyceps_inbox_receive_node(&inbox, &out) == CORDYCEPS_DONE && out.at == &jobs[ROOMS]->links);
    out.at = NULL;
  }
  CHECK(requests == asked && frees == freed && cordyceps_inbox_free(&inbox));
}

static void pile_nodes(struct job **jobs) {
  cordyceps_pile pile = {NULL}, nothing = {NULL};
  cordyceps_node node = {&jobs[0]->links}, out = {NULL};
  CHECK(cordyceps_pile_push_node(&nothing, &node) == CORDYCEPS_NOTHING && node.at == &jobs[0]->links);
  CHECK(!cordyceps_pile_pop_node(&nothing, &out) && !out.at);
  CHECK(cordyceps_pile_new(ROOMS, &pile));
  size_t asked = requests, freed = frees;
  CHECK(!cordyceps_pile_pop_node(&pile, &out) && !out.at);
  for (int round = 0; round < 3; round++) {
    for (uint64_t i = 0; i <= ROOMS; i++) {
      node.at = &jobs[i]->links;
      node.at->value = ~i, node.at->id = i;
      uint32_t answer = cordyceps_pile_push_node(&pile, &node);
      CHECK(i < ROOMS ? answer == CORDYCEPS_DONE && !node.at : answer == CORDYCEPS_FULL);
    }
    is_job(node.at, jobs[ROOMS], ~(uint64_t)ROOMS, ROOMS);
    for (uint64_t i = ROOMS; i-- > 0; out.at = NULL) {
      CHECK(cordyceps_pile_pop_node(&pile, &out));
      is_job(out.at, jobs[i], ~i, i);
    }
    CHECK(!cordyceps_pile_pop_node(&pile, &out) && !out.at);
    CHECK(cordyceps_pile_push_node(&pile, &node) == CORDYCEPS_DONE && !node.at);
    CHECK(cordyceps_pile_pop_node(&pile, &out) && out.at == &jobs[ROOMS]->links);
    out.at = NULL;
  }
  CHECK(requests == asked && frees == freed && cordyceps_pile_free(&pile));
}

/* Of an inbox with payloads and nodes, each comes out by either call, in the order in which it was sent. */
static void mixed_inbox(struct job **jobs) {
  cordyceps_inbox inbox = {NULL};
  cordyceps_node node = {NULL}, out = {NULL};
  uint64_t payload = 0;
  CHECK(cordyceps_inbox_new(ROOMS, &inbox));
  CHECK(cordyceps_inbox_send(&inbox, 10) == CORDYCEPS_DONE && cordyceps_inbox_send(&inbox, 11) == CORDYCEPS_DONE);
  for (size_t i = 0; i < 2; i++) {
    node.at = &jobs[i]->links;
    node.at->value = 12 + i, node.at->id = i;
    CHECK(cordyceps_inbox_send_node(&inbox, &node) == CORDYCEPS_DONE);
  }
  CHECK(cordyceps_inbox_send(&inbox, 14) == CORDYCEPS_DONE);
  size_t asked = requests, freed = frees;
  CHECK(cordyceps_inbox_receive_node(&inbox, &out) == CORDYCEPS_DONE && out.at->value == 10 && out.at->home == 0);
  CHECK(frees == freed);
  cordyceps_node_free(&out);
  CHECK(!out.at && frees == freed + 1);
  CHECK(cordyceps_inbox_receive(&inbox, &payload) == CORDYCEPS_DONE && payload == 11 && frees == freed + 2);
  /* the value of a node of the caller's is handed out, and the node is the caller's again */
  CHECK(cordyceps_inbox_receive(&inbox, &payload) == CORDYCEPS_DONE && payload == 12 && frees == freed + 2);
  is_job(&jobs[0]->links, jobs[0], 12, 0);
  CHECK(cordyceps_inbox_receive_node(&inbox, &out) == CORDYCEPS_DONE && out.at == &jobs[1]->links);
  cordyceps_node_free(&out);
  CHECK(!out.at && frees == freed + 2);
  is_job(&jobs[1]->links, jobs[1], 13, 1);
  CHECK(cordyceps_inbox_receive(&inbox, &payload) == CORDYCEPS_DONE && payload == 14 && frees == freed + 3);
  CHECK(requests == asked);
  /* what is left is freed with the inbox, and the caller's node is the caller's */
  node.at = &jobs[0]->links;
  CHECK(cordyceps_inbox_send_node(&inbox, &node) == CORDYCEPS_DONE);
  CHECK(cordyceps_inbox_send(&inbox, 15) == CORDYCEPS_DONE && cordyceps_inbox_free(&inbox));
  is_job(&jobs[0]->links, jobs[0], 12, 0);
}

/* So for a pile, the last first. */
static void mixed_pile(struct job **jobs) {
  cordyceps_pile pile = {NULL};
  cordyceps_node node = {NULL}, out = {NULL};
  uint64_t payload = 0;
  CHECK(cordyceps_pile_new(ROOMS, &pile));
  CHECK(cordyceps_pile_push(&pile, 10) == CORDYCEPS_DONE);
  for (size_t i = 0; i < 2; i++) {
    node.at = &jobs[i]->links;
    node.at->value = 11 + i, node.at->id = i;
    CHECK(cordyceps_pile_push_node(&pile, &node) == CORDYCEPS_DONE);
  }
  CHECK(cordyceps_pile_push(&pile, 13) == CORDYCEPS_DONE);
  size_t asked = requests, freed = frees;
  CHECK(cordyceps_pile_pop_node(&pile, &out) && out.at->value == 13 && out.at->home == 0 && frees == freed);
  cordyceps_node_free(&out);
  CHECK(!out.at && frees == freed + 1);
  CHECK(cordyceps_pile_pop(&pile, &payload) && payload == 12 && frees == freed + 1);
  is_job(&jobs[1]->links, jobs[1], 12, 1);
  CHECK(cordyceps_pile_pop_node(&pile, &out) && frees == freed + 1);
  is_job(out.at, jobs[0], 11, 0);
  CHECK(cordyceps_pile_pop(&pile, &payload) && payload == 10 && frees == freed + 2 && requests == asked);
  /* what was taken is freed with the handle, and so is what is in the pile, but for the caller's nodes */
  CHECK(cordyceps_pile_push(&pile, 14) == CORDYCEPS_DONE && cordyceps_pile_push_node(&pile, &out) == CORDYCEPS_DONE);
  CHECK(cordyceps_pile_push(&pile, 15) == CORDYCEPS_DONE && cordyceps_pile_pop(&pile, &payload) && payload == 15);
  node.at = &jobs[1]->links;
  CHECK(cordyceps_pile_push_node(&pile, &node) == CORDYCEPS_DONE && cordyceps_pile_free(&pile));
  is_job(&jobs[0]->links, jobs[0], 11, 0);
  is_job(&jobs[1]->links, jobs[1], 12, 1);
}

/* A node that the library made is as good as one of the caller's, until cordyceps_node_free frees it. */
static void made_nodes(void) {
  cordyceps_inbox inbox = {NULL};
  cordyceps_node_queue_memory memory = CORDYCEPS_NODE_QUEUE_INIT;
  cordyceps_node_queue queue = {&memory};
  cordyceps_node out = {NULL};
  CHECK(cordyceps_inbox_new(ROOMS, &inbox));
  for (uint64_t i = 0; i < ROOMS; i++)
    CHECK(cordyceps_inbox_send(&inbox, ROOMS - i) == CORDYCEPS_DONE);
  size_t asked = requests, freed = frees;
  while (cordyceps_inbox_receive_node(&inbox, &out) == CORDYCEPS_DONE) {
    cordyceps_spot spot;
    cordyceps_node_queue_push(&queue, &out, &spot);
    CHECK(!out.at && spot.at);
  }
  CHECK(cordyceps_node_queue_len(&queue) == ROOMS && requests == asked && frees == freed);
  for (uint64_t i = 1; i <= ROOMS; i++) {
    CHECK(cordyceps_node_queue_pop(&queue, &out) && out.at->value == i && out.at->home == 0);
    cordyceps_node_free(&out);
    CHECK(!out.at && frees == freed + i);
  }
  CHECK(cordyceps_node_queue_free(&queue) && cordyceps_inbox_free(&inbox));
}

/* Each job goes from a list to a queue, an inbox, a pile and a list again. */
static void from_one_to_the_next(struct job **jobs) {
  cordyceps_node_list_memory memory = CORDYCEPS_NODE_LIST_INIT;
  cordyceps_node_queue_memory ordered = CORDYCEPS_NODE_QUEUE_INIT;
  cordyceps_node_list list = {&memory};
  cordyceps_node_queue queue = {&ordered};
  cordyceps_inbox inbox = {NULL};
  cordyceps_pile pile = {NULL};
  cordyceps_node node = {NULL};
  cordyceps_spot spot;
  CHECK(cordyceps_inbox_new(JOBS, &inbox) && cordyceps_pile_new(JOBS, &pile));
  size_t asked = requests, freed = frees;
  for (uint64_t i = 0; i < JOBS; i++) {
    jobs[i]->links.value = JOBS - i, jobs[i]->links.id = i;
    cordyceps_node_list_add_last(&list, &jobs[i]->links);
  }
  for (int round = 0; round < 3; round++) {
    while (cordyceps_node_list_pop_front(&list, &node))
      cordyceps_node_queue_push(&queue, &node, &spot);
    while (cordyceps_node_queue_pop(&queue, &node))
      CHECK(cordyceps_inbox_send_node(&inbox, &node) == CORDYCEPS_DONE);
    while (cordyceps_inbox_receive_node(&inbox, &node) == CORDYCEPS_DONE)
      CHECK(cordyceps_pile_push_node(&pile, &node) == CORDYCEPS_DONE);
    while (cordyceps_pile_pop_node(&pile, &node))
      cordyceps_node_list_push_back(&list, &node, &spot);
    CHECK(!node.at && cordyceps_node_list_len(&list) == JOBS);
  }
  /* the least value was pushed onto the pile first */
  for (uint64_t i = 0; i < JOBS; i++)
    is_job(cordyceps_node_list_take_first(&list), jobs[i], JOBS - i, i);
  CHECK(cordyceps_node_list_free(&list) && cordyceps_node_queue_free(&queue) && requests == asked && frees == freed);
  CHECK(cordyceps_inbox_free(&inbox) && cordyceps_pile_free(&pile));
}

struct sender {
  cordyceps_inbox inbox;
  cordyceps_pile free_jobs;
  uint64_t number, count;
};

static void give_back(cordyceps_inbox *inbox, cordyceps_pile *pile) {
  while (!cordyceps_inbox_give_back(inbox) || !cordyceps_pile_give_back(pile))
    sched_yield();
}

static void push_free(cordyceps_pile *pile, cordyceps_links *links) {
  cordyceps_node node = {links};
  uint32_t answer;
  while ((answer = cordyceps_pile_push_node(pile, &node)) != CORDYCEPS_DONE) {
    CHECK((answer == CORDYCEPS_FULL || answer == CORDYCEPS_BUSY) && node.at == links);
    sched_yield();
  }
  CHECK(!node.at);
}

/* Takes all jobs that are free, sends one after the other, and in the end gives back those that are left. */
static void *send_all(void *given) {
  struct sender *it = given;
  cordyceps_node_list_memory memory = CORDYCEPS_NODE_LIST_INIT;
  cordyceps_node_list own = {&memory};
  cordyceps_links *links;
  for (uint64_t i = 0; i < it->count; i++) {
    cordyceps_node node = {NULL};
    while (!(links = cordyceps_node_list_take_first(&own))) {
      for (; cordyceps_pile_pop_node(&it->free_jobs, &node); node.at = NULL)
        cordyceps_node_list_add_last(&own, node.at);
      give_back(&it->inbox, &it->free_jobs);
      sched_yield();
    }
    cordyceps_container(links, struct job, links)->number = it->number << 32 | i;
    links->value = i, links->id = it->number;
    node.at = links;
    for (uint32_t answer; (answer = cordyceps_inbox_send_node(&it->inbox, &node)) != CORDYCEPS_DONE; sched_yield())
      CHECK(answer == CORDYCEPS_FULL && node.at == links);
    CHECK(!node.at);
  }
  while ((links = cordyceps_node_list_take_first(&own)))
    push_free(&it->free_jobs, links);
  CHECK(cordyceps_node_list_free(&own));
  give_back(&it->inbox, &it->free_jobs);
  return NULL;
}

/* Receives what all send: the nodes of a thread in its order, with what it wrote to their jobs. */
static void receive_all(cordyceps_inbox *inbox, cordyceps_pile *free_jobs, uint64_t count) {
  uint64_t next[SENDERS] = {0}, received = 0;
  while (received < SENDERS * count) {
    cordyceps_node node = {NULL};
    uint32_t answer = cordyceps_inbox_receive_node(inbox, &node);
    if (answer == CORDYCEPS_DONE) {
      uint64_t number = node.at->id, value = node.at->value;
      CHECK(number < SENDERS && value == next[number]++ && node.at->home == 1);
      is_whole(cordyceps_container(node.at, struct job, links), number << 32 | value);
      push_free(free_jobs, node.at);
      received++;
    } else {
      CHECK((answer == CORDYCEPS_EMPTY || answer == CORDYCEPS_UNLINKED) && !node.at);
      sched_yield();
    }
    if (answer != CORDYCEPS_DONE || received % 16 == 0)
      give_back(inbox, free_jobs);
  }
}

/* All jobs are on the pile again, each once. */
static void are_all_free(cordyceps_pile *free_jobs, struct job *jobs) {
  bool is_free[AROUND] = {false};
  cordyceps_node node = {NULL};
  size_t found = 0;
  for (; cordyceps_pile_pop_node(free_jobs, &node); node.at = NULL, found++) {
    size_t i = (size_t)(cordyceps_container(node.at, struct job, links) - jobs);
    CHECK(i < AROUND && !is_free[i]);
    is_whole(&jobs[i], jobs[i].number);
    is_free[i] = true;
  }
  CHECK(found == AROUND);
}

static void threads(uint64_t count) {
  static struct job jobs[AROUND];
  static struct sender senders[SENDERS];
  pthread_t running[SENDERS];
  cordyceps_inbox inbox = {NULL};
  cordyceps_pile free_jobs = {NULL};
  CHECK(cordyceps_inbox_new(AROUND, &inbox) && cordyceps_pile_new(AROUND, &free_jobs));
  for (uint64_t i = 0; i < SENDERS; i++) {
    senders[i].number = i, senders[i].count = count;
    CHECK(cordyceps_inbox_split(&inbox, &senders[i].inbox));
    CHECK(cordyceps_pile_split(&free_jobs, &senders[i].free_jobs));
  }
  size_t asked = requests, freed = frees;
  for (uint64_t i = 0; i < AROUND; i++) {
    make_job(&jobs[i], i);
    push_free(&free_jobs, &jobs[i].links);
  }
  give_back(&inbox, &free_jobs);
  for (uint64_t i = 0; i < SENDERS; i++)
    CHECK(!pthread_create(&running[i], NULL, send_all, &senders[i]));
  receive_all(&inbox, &free_jobs, count);
  for (uint64_t i = 0; i < SENDERS; i++)
    CHECK(!pthread_join(running[i], NULL));
  are_all_free(&free_jobs, jobs);
  CHECK(requests == asked && frees == freed);
  for (uint64_t i = 0; i < SENDERS; i++)
    CHECK(cordyceps_inbox_absorb(&inbox, &senders[i].inbox) && cordyceps_pile_free(&senders[i].free_jobs));
  CHECK(cordyceps_inbox_free(&inbox) && cordyceps_pile_free(&free_jobs));
}

/* The argument says how many nodes each thread sends. */
int main(int argc, char **argv) {
  struct jobs jobs;
  make_jobs(&jobs);
  inbox_nodes(jobs.all);
  pile_nodes(jobs.all);
  mixed_inbox(jobs.all);
  mixed_pile(jobs.all);
  made_nodes();
  from_one_to_the_next(jobs.all);
  end_jobs(&jobs);
  threads(argc > 1 ? strtoull(argv[1], NULL, 10) : 20000);
  return 0;
}
