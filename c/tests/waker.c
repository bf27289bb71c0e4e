/* A thread sleeps on an eventfd until others that send to its inbox have woken it. Each wakes it only where its waker
 * is armed. The test does not end if a wake-up is lost. */
#include <pthread.h>
#include <sched.h>
#include <sys/eventfd.h>
#include <unistd.h>

#include "checked.h"
#include "cordyceps_waker.h"

enum { SENDERS = 4, ROOMS = 64 };

struct sleeper {
  cordyceps_waker waker;
  int fd;
};

struct sender {
  cordyceps_inbox inbox;
  struct sleeper *to;
  uint64_t count, woken;
};

/* Each of the first payloads is sent when the one before has been received, mostly, so that the receiver sleeps. */
static void *send_all(void *given) {
  struct sender *it = given;
  for (uint64_t i = 0; i < it->count; i++) {
    uint32_t answer;
    while ((answer = cordyceps_inbox_send(&it->inbox, i)) != CORDYCEPS_DONE) {
      CHECK(answer == CORDYCEPS_FULL);
      sched_yield();
    }
    if (cordyceps_waker_disarm(&it->to->waker)) {
      it->woken++;
      CHECK(eventfd_write(it->to->fd, 1) == 0);
    }
    if (i < it->count / 8)
      usleep(1);
  }
  while (!cordyceps_inbox_give_back(&it->inbox))
    sched_yield();
  return NULL;
}

/* Receives as many payloads as are sent, and returns how often it slept. */
static uint64_t receive_all(cordyceps_inbox *inbox, struct sleeper *of, uint64_t count) {
  uint64_t payload, received = 0, slept = 0;
  eventfd_t woken;
  for (;;) {
    cordyceps_waker_arm(&of->waker);
    while (cordyceps_inbox_receive(inbox, &payload) == CORDYCEPS_DONE)
      received++;
    if (received == count)
      return slept;
    CHECK(eventfd_read(of->fd, &woken) == 0 && woken >= 1);
    slept++;
  }
}

static void sleep_between(uint64_t count) {
  cordyceps_inbox inbox = {0};
  struct sleeper sleeper = {{0}, eventfd(0, EFD_CLOEXEC)};
  struct sender senders[SENDERS];
  pthread_t threads[SENDERS];
  uint64_t woken = 0;
  CHECK(sleeper.fd >= 0 && cordyceps_inbox_new(ROOMS, &inbox));
  for (uint64_t i = 0; i < SENDERS; i++) {
    senders[i] = (struct sender){{0}, &sleeper, count, 0};
    CHECK(cordyceps_inbox_split(&inbox, &senders[i].inbox));
  }
  for (uint64_t i = 0; i < SENDERS; i++)
    CHECK(!pthread_create(&threads[i], NULL, send_all, &senders[i]));
  uint64_t slept = receive_all(&inbox, &sleeper, SENDERS * count);
  for (uint64_t i = 0; i < SENDERS; i++) {
    CHECK(!pthread_join(threads[i], NULL));
    CHECK(cordyceps_inbox_free(&senders[i].inbox));
    woken += senders[i].woken;
  }
  CHECK(slept <= woken && woken <= SENDERS * count);
  close(sleeper.fd);
  CHECK(cordyceps_inbox_free(&inbox));
}

static void one_wakes(void) {
  cordyceps_waker waker = {0};
  CHECK(!cordyceps_waker_disarm(&waker));
  cordyceps_waker_arm(&waker);
  cordyceps_waker_arm(&waker);
  CHECK(cordyceps_waker_disarm(&waker));
  CHECK(!cordyceps_waker_disarm(&waker));
}

/* The pattern of the header, for many more payloads than there are rooms. */
static void rooms_come_back(void) {
  cordyceps_inbox inbox = {0}, sender = {0};
  struct sleeper sleeper = {{0}, eventfd(0, EFD_CLOEXEC)};
  uint64_t payload;
  eventfd_t count;
  CHECK(sleeper.fd >= 0 && cordyceps_inbox_new(ROOMS, &inbox) && cordyceps_inbox_split(&inbox, &sender));
  CHECK(cordyceps_inbox_receive(&inbox, &payload) == CORDYCEPS_EMPTY);
  for (uint64_t i = 0; i < 20 * ROOMS; i++) {
    cordyceps_waker_arm(&sleeper.waker);
    CHECK(cordyceps_inbox_send(&sender, i) == CORDYCEPS_DONE);
    if (cordyceps_waker_disarm(&sleeper.waker))
      CHECK(eventfd_write(sleeper.fd, 1) == 0);
    while (cordyceps_inbox_receive(&inbox, &payload) == CORDYCEPS_DONE)
      CHECK(payload == i);
    CHECK(eventfd_read(sleeper.fd, &count) == 0 && count == 1);
  }
  close(sleeper.fd);
  CHECK(cordyceps_inbox_free(&sender) && cordyceps_inbox_free(&inbox));
}

int main(int count, char **words) {
  one_wakes();
  rooms_come_back();
  sleep_between(count > 1 ? strtoull(words[1], NULL, 10) : 20000);
  return 0;
}
