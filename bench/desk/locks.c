/* Threads that take turns by a ticket lock with yield, or by a pthread mutex. Words: lock|mutex THREADS COUNT ROUNDS.
   Each thread makes COUNT calls; each call keeps the processor for ROUNDS rounds inside the turn. */
#include <pthread.h>
#include <sched.h>
#include <stdatomic.h>
#include <stdint.h>
#include <stdio.h>
#include <stdlib.h>
#include <string.h>

static _Atomic uint64_t next_ticket, serving;
static pthread_mutex_t mutex = PTHREAD_MUTEX_INITIALIZER;
static int by_mutex;
static uint32_t count, rounds;
static uint64_t heat, sum, calls;

static uint64_t busy(uint32_t n, uint64_t x) {
  for (uint32_t i = 0; i < n; i++) x = (x ^ (x >> 29)) * 0x2545f4914f6cdd1dull + 1;
  return x;
}

static void turn(uint32_t number) {
  heat = busy(rounds, heat);
  sum += number;
  calls++;
}

static void *add_all(void *unused) {
  (void)unused;
  for (uint32_t i = 0; i < count; i++) {
    if (by_mutex) {
      pthread_mutex_lock(&mutex);
      turn(i);
      pthread_mutex_unlock(&mutex);
    } else {
      uint64_t mine = atomic_fetch_add(&next_ticket, 1);
      for (int loads = 0; atomic_load(&serving) != mine; loads++)
        if (loads >= 64) sched_yield();
      turn(i);
      atomic_fetch_add(&serving, 1);
    }
  }
  return NULL;
}

int main(int argc, char **argv) {
  if (argc != 5) return 2;
  by_mutex = strcmp(argv[1], "mutex") == 0;
  int threads = atoi(argv[2]);
  count = (uint32_t)atoi(argv[3]);
  rounds = (uint32_t)atoi(argv[4]);
  pthread_t ids[64];
  if (threads < 1 || threads > 64) return 2;
  for (int i = 0; i < threads; i++)
    if (pthread_create(&ids[i], NULL, add_all, NULL)) return 1;
  for (int i = 0; i < threads; i++) pthread_join(ids[i], NULL);
  printf("calls %llu\nsum %llu\n", (unsigned long long)calls, (unsigned long long)sum);
  return 0;
}
