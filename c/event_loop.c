/* An event loop to start a server from, for Linux. One thread reads by epoll what connections send. Workers, which have
 * threads of their own, work on each line, and send it back to the inbox of the loop, which they wake by an eventfd. A
 * line is answered in upper case. A connection that is silent for too long expires by its timer.
 *
 * The program makes its own load, and ends with status 1 if a line is lost, if a connection expires too early, or if
 * one that is silent does not expire. */
#include <ctype.h>
#include <errno.h>
#include <pthread.h>
#include <sched.h>
#include <stdio.h>
#include <stdlib.h>
#include <string.h>
#include <sys/epoll.h>
#include <sys/eventfd.h>
#include <sys/socket.h>
#include <time.h>
#include <unistd.h>

#include "cordyceps.h"
#include "cordyceps_waker.h"

/* A worker has at most one line of each connection. An inbox has rooms for all of these, beside the 16 that a handle
 * keeps that receives. */
enum { CONNECTIONS = 6, WORKERS = 2, ROOMS = 64, TEXT = 64, IDLE_MS = 300, MESSAGES = 30 };

/* What a thread sleeps on, and whether it has to be woken. */
struct sleep {
  cordyceps_waker waker;
  int fd;
};

struct worker {
  pthread_t thread;
  cordyceps_inbox lines, jobs, results; /* to send it lines, to receive them, and to send them back to the loop */
  struct sleep sleep, *of_loop;
};

struct connection {
  int fd; /* -1: it is closed */
  struct worker *worker;
  cordyceps_ticket timer;
  uint64_t deadline;
  size_t len;  /* of the text */
  size_t line; /* of the line at the start of the text, while a worker has it; else 0 */
  char text[TEXT];
};

struct loop {
  cordyceps_inbox inbox;
  cordyceps_timers timers;
  struct sleep sleep;
  int poll;
  struct connection connections[CONNECTIONS];
  unsigned lines, results, expired;
};

static void ends_unless(bool is_well, const char *what) {
  if (!is_well) {
    fprintf(stderr, "event_loop: %s\n", what);
    exit(1);
  }
}

static uint64_t now_ms(void) {
  struct timespec it;
  clock_gettime(CLOCK_MONOTONIC, &it);
  return (uint64_t)it.tv_sec * 1000 + (uint64_t)it.tv_nsec / 1000000;
}

/* Gives the rooms of a handle that sent back, so that no other thread that sends lacks them. */
static void give_back(cordyceps_inbox *it) {
  while (!cordyceps_inbox_give_back(it))
    sched_yield();
}

/* Sends to an inbox, and wakes its thread if that sleeps. If no room is free, another thread is about to give some
 * back. */
static void post(cordyceps_inbox *to, struct connection *payload, struct sleep *of) {
  uint32_t answer;
  while ((answer = cordyceps_inbox_send(to, (uintptr_t)payload)) == CORDYCEPS_FULL)
    sched_yield();
  ends_unless(answer == CORDYCEPS_DONE, "a line was not sent");
  if (cordyceps_waker_disarm(&of->waker))
    ends_unless(eventfd_write(of->fd, 1) == 0, "a thread was not woken");
}

/* Receives from an inbox. false: nothing is there, or a thread is about to send, which then wakes this one. */
static bool take(cordyceps_inbox *from, struct connection **out) {
  uint64_t payload;
  if (cordyceps_inbox_receive(from, &payload) != CORDYCEPS_DONE)
    return false;
  *out = (struct connection *)(uintptr_t)payload;
  return true;
}

/* What a worker does: it works on lines, until it gets NULL. */
static void *work(void *given) {
  struct worker *it = given;
  struct connection *of;
  eventfd_t count;
  for (;;) {
    cordyceps_waker_arm(&it->sleep.waker);
    while (take(&it->jobs, &of)) {
      if (!of)
        return NULL;
      for (size_t i = 0; i < of->line; i++)
        of->text[i] = (char)toupper((unsigned char)of->text[i]);
      post(&it->results, of, it->of_loop);
    }
    give_back(&it->results);
    ends_unless(eventfd_read(it->sleep.fd, &count) == 0, "a worker does not sleep");
  }
}

static void start_worker(struct loop *loop, struct worker *it) {
  *it = (struct worker){.sleep = {.fd = eventfd(0, EFD_CLOEXEC)}, .of_loop = &loop->sleep};
  ends_unless(it->sleep.fd >= 0 && cordyceps_inbox_new(ROOMS, &it->lines), "there is no inbox with an eventfd");
  ends_unless(cordyceps_inbox_split(&it->lines, &it->jobs), "memory was refused");
  ends_unless(cordyceps_inbox_split(&loop->inbox, &it->results), "memory was refused");
  ends_unless(pthread_create(&it->thread, NULL, work, it) == 0, "a thread was refused");
}

static void end_worker(struct loop *loop, struct worker *it) {
  post(&it->lines, NULL, &it->sleep);
  ends_unless(pthread_join(it->thread, NULL) == 0, "a thread did not end");
  ends_unless(cordyceps_inbox_absorb(&loop->inbox, &it->results), "a handle was of nothing");
  ends_unless(cordyceps_inbox_free(&it->jobs) && cordyceps_inbox_free(&it->lines), "a handle was of nothing");
  close(it->sleep.fd);
}

static void make_loop(struct loop *it) {
  struct epoll_event event = {.events = EPOLLIN, .data.ptr = NULL};
  *it = (struct loop){.sleep = {.fd = eventfd(0, EFD_NONBLOCK | EFD_CLOEXEC)}, .poll = epoll_create1(EPOLL_CLOEXEC)};
  ends_unless(epoll_ctl(it->poll, EPOLL_CTL_ADD, it->sleep.fd, &event) == 0, "there is no epoll of an eventfd");
  ends_unless(cordyceps_inbox_new(ROOMS, &it->inbox) && cordyceps_timers_new(0, &it->timers), "memory was refused");
}

/* Has epoll report once that there is text of a connection, or its end. */
static void await_text(struct loop *it, struct connection *of, int call) {
  struct epoll_event event = {.events = EPOLLIN | EPOLLONESHOT, .data.ptr = of};
  ends_unless(epoll_ctl(it->poll, call, of->fd, &event) == 0, "epoll refused a connection");
}

static void add_connection(struct loop *it, struct connection *of, int fd, struct worker *worker) {
  *of = (struct connection){.fd = fd, .worker = worker, .deadline = now_ms() + IDLE_MS};
  ends_unless(cordyceps_timers_start(&it->timers, of->deadline, (uintptr_t)of, &of->timer), "memory was refused");
  await_text(it, of, EPOLL_CTL_ADD);
}

/* Closes a connection before it expires. */
static void hang_up(struct loop *it, struct connection *of) {
  cordyceps_fired stopped;
  ends_unless(cordyceps_timers_stop(&it->timers, of->timer, &stopped), "a timer was not stopped");
  close(of->fd);
  of->fd = -1;
}

/* Restarts the timer, and hands the next line to the worker. If there is none, more text is awaited. */
static void go_on(struct loop *it, struct connection *of) {
  const char *end = memchr(of->text, '\n', of->len);
  of->deadline = now_ms() + IDLE_MS;
  ends_unless(cordyceps_timers_restart(&it->timers, of->timer, of->deadline), "a timer was not restarted");
  if (end) {
    of->line = (size_t)(end - of->text) + 1;
    it->lines++;
    post(&of->worker->lines, of, &of->worker->sleep);
  } else {
    await_text(it, of, EPOLL_CTL_MOD);
  }
}

/* Takes what has come. This is nothing if the client has closed its end, or if a line is longer than TEXT. */
static void take_text(struct loop *it, struct connection *of) {
  ssize_t got = recv(of->fd, of->text + of->len, TEXT - of->len, MSG_DONTWAIT);
  of->len += got > 0 ? (size_t)got : 0;
  if (got > 0 || (got < 0 && errno == EAGAIN))
    go_on(it, of);
  else
    hang_up(it, of);
}

/* Sends a line to the client. If the client reads too little for that, the connection is closed. */
static void answer(struct loop *it, struct connection *of) {
  bool is_sent = send(of->fd, of->text, of->line, MSG_DONTWAIT | MSG_NOSIGNAL) == (ssize_t)of->line;
  of->len -= of->line;
  memmove(of->text, of->text + of->line, of->len);
  of->line = 0;
  if (is_sent)
    go_on(it, of);
  else
    hang_up(it, of);
}

/* Takes the lines that workers have sent back. If a connection has expired meanwhile, its line is dropped. */
static void take_results(struct loop *it) {
  struct connection *of;
  for (; take(&it->inbox, &of); it->results++)
    if (of->fd >= 0)
      answer(it, of);
}

/* Closes the connections whose timers fire. */
static void expire(struct loop *it, uint64_t now) {
  cordyceps_fired fired;
  for (; cordyceps_timers_pop_due(&it->timers, now, &fired); it->expired++) {
    struct connection *of = (struct connection *)(uintptr_t)fired.payload;
    ends_unless(fired.deadline == of->deadline && of->deadline <= now, "a connection expired too early");
    close(of->fd);
    of->fd = -1;
  }
  for (struct connection *of = it->connections; of < it->connections + CONNECTIONS; of++)
    ends_unless(of->fd < 0 || (of->deadline > now && cordyceps_timers_len(&it->timers)), "a connection is left");
}

/* For how many milliseconds no timer fires; -1 if none runs. None fires later than in IDLE_MS. */
static int pause_of(struct loop *it, uint64_t now) {
  uint64_t until;
  if (!cordyceps_timers_not_before(&it->timers, &until))
    return -1;
  return until <= now ? 0 : (int)(until - now);
}

/* Waits, and does what there is to do. The waker is armed before the last look at the inbox, so that a result that
 * comes after it ends the wait. Timers fire by the time before the wait, so that a line that came in time is read
 * first. They fire after the events, so that no event is of a connection that is closed. */
static void turn(struct loop *it) {
  struct epoll_event events[CONNECTIONS + 1];
  uint64_t now = now_ms();
  eventfd_t count;
  cordyceps_waker_arm(&it->sleep.waker);
  take_results(it);
  int many = epoll_wait(it->poll, events, CONNECTIONS + 1, pause_of(it, now));
  ends_unless(many >= 0 || errno == EINTR, "epoll does not wait");
  for (int i = 0; i < many; i++)
    if (events[i].data.ptr)
      take_text(it, events[i].data.ptr);
    else
      eventfd_read(it->sleep.fd, &count);
  take_results(it);
  expire(it, now);
}

struct client {
  pthread_t thread;
  int fd;
  unsigned number, seed;
  uint64_t since;    /* a time before that at which its timer was last restarted */
  bool lacks_answer; /* to a line that it sent in time */
};

/* Sleeps, sends one to four lines in two pieces, and reads the answers. false: the loop has closed the connection. */
static bool say(struct client *it) {
  char said[4 * TEXT], heard[4 * TEXT];
  size_t len = 0;
  usleep((useconds_t)rand_r(&it->seed) % 30000);
  uint64_t before = now_ms();
  for (int i = rand_r(&it->seed) % 4; i >= 0; i--)
    len += (size_t)sprintf(said + len, "line %d of client %u\n", i, it->number);
  size_t cut = (size_t)rand_r(&it->seed) % len;
  bool is_sent = send(it->fd, said, cut, MSG_NOSIGNAL) >= 0 && send(it->fd, said + cut, len - cut, MSG_NOSIGNAL) >= 0;
  bool is_in_time = is_sent && now_ms() < it->since + IDLE_MS;
  ssize_t got = recv(it->fd, heard, len, MSG_WAITALL);
  for (ssize_t i = 0; i < got; i++)
    ends_unless(heard[i] == toupper((unsigned char)said[i]), "a line has a wrong answer");
  it->since = got > 0 ? before : it->since;
  it->lacks_answer = is_in_time && got != (ssize_t)len;
  return got == (ssize_t)len;
}

/* What a client does. In the end one of an odd number closes its socket, and one of an even number is silent. */
static void *chat(void *given) {
  struct client *it = given;
  bool is_open = true;
  char more;
  for (int i = 0; is_open && i < MESSAGES; i++)
    is_open = say(it);
  if (!is_open || it->number % 2 == 0)
    ends_unless(recv(it->fd, &more, 1, 0) <= 0 && now_ms() >= it->since + IDLE_MS, "a connection expired too early");
  close(it->fd);
  return NULL;
}

int main(void) {
  static struct loop loop;
  struct worker workers[WORKERS];
  struct client clients[CONNECTIONS];
  make_loop(&loop);
  for (unsigned i = 0; i < WORKERS; i++)
    start_worker(&loop, &workers[i]);
  for (unsigned i = 0; i < CONNECTIONS; i++) {
    int ends[2];
    ends_unless(socketpair(AF_UNIX, SOCK_STREAM | SOCK_CLOEXEC, 0, ends) == 0, "there is no pair of sockets");
    clients[i] = (struct client){.fd = ends[1], .number = i, .seed = i + 1, .since = now_ms()};
    add_connection(&loop, &loop.connections[i], ends[0], &workers[i % WORKERS]);
    ends_unless(pthread_create(&clients[i].thread, NULL, chat, &clients[i]) == 0, "a thread was refused");
  }
  while (cordyceps_timers_len(&loop.timers) > 0)
    turn(&loop);
  for (unsigned i = 0; i < WORKERS; i++)
    end_worker(&loop, &workers[i]);
  take_results(&loop);
  ends_unless(loop.lines == loop.results, "a line was lost");
  for (unsigned i = 0; i < CONNECTIONS; i++) {
    ends_unless(pthread_join(clients[i].thread, NULL) == 0, "a thread did not end");
    ends_unless(!clients[i].lacks_answer || loop.connections[i].line > 0, "a line was not answered");
  }
  ends_unless(cordyceps_inbox_free(&loop.inbox) && cordyceps_timers_free(&loop.timers), "a handle was of nothing");
  close(loop.sleep.fd);
  close(loop.poll);
  printf("event_loop: %u lines; %u of %d connections expired\n", loop.results, loop.expired, CONNECTIONS);
  return 0;
}
