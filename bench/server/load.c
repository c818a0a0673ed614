/* A client for each door of a server, which keeps so many Signs of 32 bytes under way: it sends that many, and another for
   each reply. Words: COUNT UNDERWAY DOOR [DOOR ..], each DOOR as the server's, the first at locality 0. Before the clock
   starts it makes the root and derives UNDERWAY contexts for each door, since a Sign names the handle of the reply before.
   It prints the Signs of all doors, the nanoseconds that they took, and how many that is a second. */
#include <errno.h>
#include <pthread.h>
#include <stdbool.h>
#include <stdint.h>
#include <stdio.h>
#include <stdlib.h>
#include <string.h>
#include <sys/socket.h>
#include <sys/un.h>
#include <time.h>
#include <unistd.h>

enum { HANDLE = 16, INPUT = 64, MESSAGE = 32, MOST_DOORS = 16, MOST_UNDERWAY = 16, TRIES = 500 };

/* The bytes before the first handle of each frame, its length with them. */
static const uint8_t INITIALIZE[] = {0, 0, 0, 6, 0x82, 0, 0x43, 0x82, 7, 0xa0};
static const uint8_t INITIALIZED[] = {0, 0, 0, 24, 0x82, 0, 0x55, 0x82, 0, 0xa1, 1, 0x50};
static const uint8_t DERIVE[] = {0, 0, 0, 0xe8, 0x82, 0, 0x58, 0xe4, 0x82, 8, 0xa7, 1, 0x50};
static const uint8_t DERIVED[] = {0, 0, 0, 43, 0x82, 0, 0x58, 0x27, 0x82, 0, 0xa2, 1, 0x50};
static const uint8_t SIGN[] = {0, 0, 0, 64, 0x82, 0, 0x58, 0x3c, 0x82, 10, 0xa4, 1, 0x50};
static const uint8_t SIGNED[] = {0, 0, 0, 92, 0x82, 0, 0x58, 0x58, 0x82, 0, 0xa2, 1, 0x50};
/* In a Sign, between the handle and the message: retained, symmetric, and a message of 32 bytes. */
static const uint8_t RETAINED[] = {3, 0xf5, 4, 0xf5, 5, 0x58, MESSAGE};

enum {
  SIGN_FRAME = sizeof SIGN + HANDLE + sizeof RETAINED + MESSAGE,
  SIGNED_FRAME = sizeof SIGNED + HANDLE + 3 + 64,
};

struct client {
  pthread_t thread;
  uint8_t number, locality;
  int fd;
  uint8_t handles[MOST_UNDERWAY][HANDLE];
  struct timespec end;
};

static struct client clients[MOST_DOORS];
static pthread_barrier_t ready;
static uint64_t count;
static unsigned underway;

static void fail(const char *what) {
  fprintf(stderr, "load: %s%s%s\n", what, errno ? ": " : "", errno ? strerror(errno) : "");
  exit(1);
}

static void send_all(int fd, const uint8_t *bytes, size_t size) {
  for (size_t sent = 0; sent < size;) {
    ssize_t part = send(fd, bytes + sent, size - sent, MSG_NOSIGNAL);
    if (part <= 0) fail("no command could be sent");
    sent += (size_t)part;
  }
}

/* Sends a frame and reads one of this size. */
static void ask(int fd, const uint8_t *frame, size_t size, uint8_t *reply, size_t reply_size) {
  send_all(fd, frame, size);
  for (size_t got = 0; got < reply_size;) {
    ssize_t part = recv(fd, reply + got, reply_size - got, 0);
    if (part <= 0) fail("no whole reply came");
    got += (size_t)part;
    /* A refusal is shorter than what is awaited. */
    if (got >= 4 && reply[3] != (uint8_t)(reply_size - 4)) fail("a command was refused");
  }
}

/* Takes the handle that follows these bytes. */
static void take_handle(const uint8_t *reply, const uint8_t *front, size_t size, uint8_t *handle) {
  if (memcmp(reply, front, size) != 0) fail("a reply has another form");
  memcpy(handle, reply + size, HANDLE);
}

/* Makes the root, over the first door. */
static void make_root(uint8_t *handle) {
  uint8_t reply[sizeof INITIALIZED + HANDLE];
  ask(clients[0].fd, INITIALIZE, sizeof INITIALIZE, reply, sizeof reply);
  take_handle(reply, INITIALIZED, sizeof INITIALIZED, handle);
}

static uint8_t *put_input(uint8_t *out, uint8_t key, uint8_t value) {
  *out++ = key;
  *out++ = 0x58;
  *out++ = INPUT;
  memset(out, value, INPUT);
  return out + INPUT;
}

/* Derives a context from the root, over the first door, for a client; each client has a code input of its own. */
static void derive(const struct client *client, uint8_t *root, uint8_t *handle) {
  uint8_t frame[4 + 0xe8], reply[sizeof DERIVED + HANDLE + 2 + HANDLE];
  const uint8_t rest[] = {6, 1, 8, 0xf5, 10, client->locality};
  memcpy(frame, DERIVE, sizeof DERIVE);
  memcpy(frame + sizeof DERIVE, root, HANDLE);
  uint8_t *at = put_input(frame + sizeof DERIVE + HANDLE, 2, client->number);
  at = put_input(at, 3, 0x21);
  at = put_input(at, 5, 0x31);
  memcpy(at, rest, sizeof rest);
  ask(clients[0].fd, frame, sizeof frame, reply, sizeof reply);
  take_handle(reply, DERIVED, sizeof DERIVED, handle);
  memcpy(root, reply + sizeof DERIVED + HANDLE + 2, HANDLE);
}

/* Puts the Sign of this number, which names this handle. */
static uint8_t *put_sign(uint8_t *out, const struct client *client, const uint8_t *handle, uint64_t number) {
  memcpy(out, SIGN, sizeof SIGN);
  memcpy(out + sizeof SIGN, handle, HANDLE);
  memcpy(out + sizeof SIGN + HANDLE, RETAINED, sizeof RETAINED);
  memset(out + SIGN_FRAME - MESSAGE, client->number, MESSAGE);
  memcpy(out + SIGN_FRAME - MESSAGE, &number, sizeof number);
  return out + SIGN_FRAME;
}

/* Sends the Signs. Replies come in the order of the commands, so the contexts take turns. */
static void *sign_all(void *of) {
  struct client *client = of;
  uint8_t frames[MOST_UNDERWAY * SIGN_FRAME], replies[MOST_UNDERWAY * SIGNED_FRAME], *end = frames;
  uint64_t sent = 0;
  size_t held = 0;
  pthread_barrier_wait(&ready);
  for (; sent < underway && sent < count; sent++) end = put_sign(end, client, client->handles[sent], sent);
  for (uint64_t answered = 0; answered < count;) {
    send_all(client->fd, frames, (size_t)(end - frames));
    end = frames;
    ssize_t part = recv(client->fd, replies + held, sizeof replies - held, 0);
    if (part <= 0) fail("no reply came");
    held += (size_t)part;
    size_t used = 0;
    for (; held - used >= SIGNED_FRAME; used += SIGNED_FRAME, answered++) {
      uint8_t *handle = client->handles[answered % underway];
      take_handle(replies + used, SIGNED, sizeof SIGNED, handle);
      if (sent < count) end = put_sign(end, client, handle, sent++);
    }
    /* A refusal is shorter than what is awaited. */
    if (held - used >= 4 && replies[used + 3] != SIGNED[3]) fail("a command was refused");
    memmove(replies, replies + used, held - used);
    held -= used;
  }
  clock_gettime(CLOCK_MONOTONIC, &client->end);
  return NULL;
}

/* Connects to a door, which may just be about to listen. */
static void connect_to(struct client *client, uint8_t number, const char *word) {
  struct sockaddr_un address = {.sun_family = AF_UNIX};
  if (word[0] < '0' || word[0] > '7' || word[1] != ':' || !word[2]) fail("a door is a digit, a colon and a path");
  if (strlen(word + 2) >= sizeof address.sun_path) fail("a door's path is too long");
  strcpy(address.sun_path, word + 2);
  client->number = number;
  client->locality = (uint8_t)(word[0] - '0');
  for (int tries = 0; tries < TRIES; tries++) {
    client->fd = socket(AF_UNIX, SOCK_STREAM | SOCK_CLOEXEC, 0);
    if (client->fd < 0) fail("no socket");
    if (connect(client->fd, (struct sockaddr *)&address, sizeof address) == 0) return;
    if (errno != ENOENT && errno != ECONNREFUSED) break;
    close(client->fd);
    nanosleep(&(struct timespec){.tv_nsec = 10000000}, NULL);
  }
  fail(word);
}

static int64_t since(const struct timespec *start, const struct timespec *end) {
  return (end->tv_sec - start->tv_sec) * 1000000000 + (end->tv_nsec - start->tv_nsec);
}

/* Runs all clients at once, and answers the nanoseconds from the start to the end of the last one. */
static int64_t run(unsigned doors) {
  struct timespec start;
  int64_t most = 0;
  pthread_barrier_init(&ready, NULL, doors + 1);
  for (unsigned i = 0; i < doors; i++)
    if (pthread_create(&clients[i].thread, NULL, sign_all, &clients[i])) fail("no thread");
  clock_gettime(CLOCK_MONOTONIC, &start);
  pthread_barrier_wait(&ready);
  for (unsigned i = 0; i < doors; i++) {
    pthread_join(clients[i].thread, NULL);
    int64_t taken = since(&start, &clients[i].end);
    if (taken > most) most = taken;
  }
  return most;
}

int main(int argc, char **argv) {
  int doors = argc - 3;
  if (doors < 1 || doors > MOST_DOORS) fail("the words are COUNT UNDERWAY DOOR [DOOR ..]");
  count = strtoull(argv[1], NULL, 10);
  underway = (unsigned)strtoul(argv[2], NULL, 10);
  if (count == 0) fail("the count is a number from 1 on");
  if (underway < 1 || underway > MOST_UNDERWAY) fail("1 to 16 commands are under way at a door");
  for (int i = 0; i < doors; i++) connect_to(&clients[i], (uint8_t)i, argv[3 + i]);
  uint8_t root[HANDLE];
  errno = 0;
  make_root(root);
  for (int i = 0; i < doors; i++)
    for (unsigned j = 0; j < underway; j++) derive(&clients[i], root, clients[i].handles[j]);
  int64_t taken = run((unsigned)doors);
  uint64_t all = count * (unsigned)doors;
  printf("signs %llu\nnanoseconds %lld\n", (unsigned long long)all, (long long)taken);
  printf("rate %.0f\n", (double)all * 1e9 / (double)taken);
  return 0;
}
