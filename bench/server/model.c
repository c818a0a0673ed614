/* A lean server in plain C, with the same words, and with no more steps for each command than the work needs: what has come
   in is read by one call, random bytes are drawn in blocks, a reply is written by one call. It is measured beside the
   server and is no part of any program. Words: SEED JOURNAL EACH ENTRIES FIRST DOOR [DOOR ..]; README.md says more. */
#include <errno.h>
#include <fcntl.h>
#include <pthread.h>
#include <sched.h>
#include <stdalign.h>
#include <stdatomic.h>
#include <stdio.h>
#include <stdlib.h>
#include <sys/socket.h>
#include <sys/un.h>
#include <unistd.h>

#include "keyed.h"
#include "messages.h"

enum { HANDLE = 16, RANDOM = 32, LOCALITIES = 8, MOST_ROWS = 1024, MOST_DEPTH = 32 };
enum { MOST_DOORS = 16, MOST_ENTRIES = 65536, GATHERED = 32768 };
/* The bytes that one read and one draw ask for. */
enum { AHEAD = 8192, DRAWN = 4096 };
enum { SEED_LOCKED = 5, NO_SUCH_HANDLE = 17, WRONG_LOCALITY, DERIVE_NOT_ALLOWED, TOO_DEEP, CONTEXTS_FULL };
enum { SERIALS_SPENT = 25, JOURNAL_FULL, ROOT_LOCALITY, NO_DEFAULT, DEFAULT_TAKEN };
/* The loads of a wait before it gives the processor away before each further one. */
enum { LOADS = 64 };

/* A live context. */
struct row {
  uint8_t handle[HANDLE];
  uint64_t serial;
  uint8_t locality, depth;
  bool may_derive, is_default;
  uint8_t attest[CDI];
};

struct call {
  uint32_t connection, index;
  uint8_t locality, random[RANDOM];
  const uint8_t *payload;
  size_t size;
};

/* A stored call and its reply. */
struct entry {
  uint32_t caller, connection, index;
  uint8_t locality, random[RANDOM];
  uint16_t command_size, reply_size;
  uint8_t command[MOST_PAYLOAD], reply[MOST_PAYLOAD];
};

/* The shared book: what commands work on, and the history. Slots stand in `order` with the live ones first, by serial. Of the
   default context of each locality the serial is kept. */
static struct {
  uint8_t seed[CDI];
  struct keyed unsalted;
  uint64_t first, next;
  bool made;
  struct row slots[MOST_ROWS];
  uint16_t order[MOST_ROWS];
  unsigned live;
  bool has_default[LOCALITIES];
  uint64_t defaults[LOCALITIES];
  struct entry *entries;
  uint32_t length;
} book;

static alignas(64) _Atomic uint64_t next_ticket;
static alignas(64) _Atomic uint64_t serving;
static alignas(64) uint64_t capacity;

/* A door, and what its connections are served with. */
struct worker {
  pthread_t thread;
  const char *path;
  int listener, entropy;
  uint32_t name, each;
  uint8_t locality;
  bool full;
  uint32_t connections, ended_full, cut;
  uint8_t frame[4 + MOST_PAYLOAD];
  /* What was read and not yet used, and the random bytes that were drawn and not yet used. */
  uint8_t room[AHEAD], block[DRAWN];
  size_t start, end, drawn;
};

static struct worker workers[MOST_DOORS];

static void fail(int status, const char *what) {
  fprintf(stderr, "model: %s: %s\n", what, errno ? strerror(errno) : "wrong");
  exit(status);
}

/* The table of contexts. */

/* The place of the row with this serial, or of some other one where none has it. */
static unsigned place_of(uint64_t serial) {
  unsigned at = 0, left = book.live;
  while (left > 1) {
    unsigned half = left / 2;
    if (book.slots[book.order[at + half]].serial <= serial) at += half;
    left -= half;
  }
  return at;
}

/* The place of the row with this handle, or -1. */
static int find(const uint8_t *handle) {
  if (book.live == 0) return -1;
  unsigned at = place_of(load_big(handle));
  return memcmp(book.slots[book.order[at]].handle, handle, HANDLE) == 0 ? (int)at : -1;
}

/* The place of the default context of a locality, or -1. */
static int default_at(uint8_t locality) { return book.has_default[locality] ? (int)place_of(book.defaults[locality]) : -1; }

/* Makes the row at a place the last one. */
static struct row *put_last(unsigned at) {
  uint16_t slot = book.order[at];
  memmove(book.order + at, book.order + at + 1, (book.live - 1 - at) * sizeof *book.order);
  book.order[book.live - 1] = slot;
  return &book.slots[slot];
}

/* Takes the row at a place out. Its slot is then the first free one. */
static struct row spend(unsigned at) {
  struct row row = *put_last(at);
  book.live--;
  if (row.is_default) book.has_default[row.locality] = false;
  return row;
}

/* Gives the last row the next serial and 8 random bytes as its handle. */
static const uint8_t *name_row(struct row *row, const uint8_t *random) {
  row->serial = book.next++;
  store_big(row->handle, row->serial);
  memcpy(row->handle + 8, random, 8);
  if (row->is_default) {
    book.has_default[row->locality] = true;
    book.defaults[row->locality] = row->serial;
  }
  return row->handle;
}

/* Puts a row last, into the first free slot, and answers its handle. */
static const uint8_t *issue(const struct row *row, const uint8_t *random) {
  struct row *slot = &book.slots[book.order[book.live++]];
  *slot = *row;
  return name_row(slot, random);
}

/* The place of the row that a command may use, or its refusal. Without a handle it is the default one. */
static int usable(const struct value *handle, uint8_t locality, unsigned *code) {
  bool named = handle->kind != ABSENT;
  int at = named ? find(handle->bytes) : default_at(locality);
  if (at < 0)
    *code = named ? NO_SUCH_HANDLE : NO_DEFAULT;
  else if (book.slots[book.order[at]].locality != locality)
    *code = WRONG_LOCALITY;
  else
    *code = ACCEPTED;
  return at;
}

/* The commands. */

static size_t initialize(const struct call *call, const struct command *command, uint8_t *reply) {
  if (call->locality != 0) return refuse(reply, ROOT_LOCALITY);
  if (book.made) return refuse(reply, SEED_LOCKED);
  if (book.next == UINT64_MAX) return refuse(reply, SERIALS_SPENT);
  struct row root = {.may_derive = true, .is_default = is_true(command, 2)};
  memcpy(root.attest, book.seed, CDI);
  book.made = true;
  struct field made = {1, issue(&root, call->random), HANDLE};
  return write_reply(reply, ACCEPTED, &made, 1);
}

static void fold(const struct row *parent, const struct value *values, struct row *child) {
  static const uint8_t none[INPUT];
  uint8_t digest[DIGEST];
  struct layer layer = {values[2].bytes, values[3].bytes, values[5].bytes, none, (uint8_t)values[6].number};
  if (values[3].kind == ABSENT) {
    struct hash hash;
    hash_from(&hash, FIRST_STATE, 0);
    hash_more(&hash, values[4].bytes, values[4].number);
    hash_end(&hash, digest);
    layer.config = digest;
  }
  if (values[7].kind != ABSENT) layer.hidden = values[7].bytes;
  attest_next(parent->attest, &layer, child->attest);
}

/* Whether a child's locality has a default context that doesn't make way for it. */
static bool is_taken(const struct row *parent, bool retain, uint8_t target) {
  return book.has_default[target] && (retain || book.defaults[target] != parent->serial);
}

static unsigned derive_refusal(const struct row *parent, bool retain, const struct row *child) {
  if (!parent->may_derive) return DERIVE_NOT_ALLOWED;
  if (parent->depth == MOST_DEPTH) return TOO_DEEP;
  if (retain && book.live == MOST_ROWS) return CONTEXTS_FULL;
  if (child->is_default && is_taken(parent, retain, child->locality)) return DEFAULT_TAKEN;
  return UINT64_MAX - book.next < 1u + retain ? SERIALS_SPENT : ACCEPTED;
}

static size_t derive(const struct call *call, const struct command *command, uint8_t *reply) {
  const struct value *values = command->values;
  bool retain = is_true(command, 8);
  struct row child = {.is_default = is_true(command, 12)};
  child.locality = values[10].kind == ABSENT ? call->locality : (uint8_t)values[10].number;
  child.may_derive = values[9].kind == ABSENT || values[9].number == 1;
  unsigned code;
  int at = usable(&values[1], call->locality, &code);
  if (code == ACCEPTED) code = derive_refusal(&book.slots[book.order[at]], retain, &child);
  if (code != ACCEPTED) return refuse(reply, code);
  struct row parent = spend((unsigned)at);
  child.depth = parent.depth + 1;
  fold(&parent, values, &child);
  struct field made[2] = {{1, issue(&child, call->random), HANDLE}};
  if (retain) made[1] = (struct field){2, issue(&parent, call->random + 8), HANDLE};
  return write_reply(reply, ACCEPTED, made, 1u + retain);
}

static size_t sign_command(const struct call *call, const struct command *command, uint8_t *reply) {
  const struct value *values = command->values, *label = &values[2], *message = &values[5];
  bool retain = is_true(command, 3);
  unsigned code;
  int at = usable(&values[1], call->locality, &code);
  if (code == ACCEPTED && UINT64_MAX - book.next < retain) code = SERIALS_SPENT;
  if (code != ACCEPTED) return refuse(reply, code);
  uint8_t signature[DIGEST];
  sign(&book.unsalted, book.slots[book.order[at]].attest, label->bytes, label->number, message->bytes, message->number,
       signature);
  struct field signed_alone = {2, signature, DIGEST};
  if (!retain) {
    spend((unsigned)at);
    return write_reply(reply, ACCEPTED, &signed_alone, 1);
  }
  struct field made[2] = {{1, name_row(put_last((unsigned)at), call->random), HANDLE}, signed_alone};
  return write_reply(reply, ACCEPTED, made, 2);
}

static size_t execute(const struct call *call, uint8_t *reply) {
  struct command command;
  unsigned code = read_command(call->payload, call->size, &command);
  if (code != ACCEPTED) return refuse(reply, code);
  switch (command.number) {
  case INITIALIZE_CONTEXT: return initialize(call, &command, reply);
  case DERIVE_CONTEXT: return derive(call, &command, reply);
  default: return sign_command(call, &command, reply);
  }
}

/* Executes a call and appends its entry. */
static size_t step(uint32_t caller, const struct call *call, uint8_t *reply) {
  size_t size = execute(call, reply);
  struct entry *entry = &book.entries[book.length++];
  entry->caller = caller;
  entry->connection = call->connection;
  entry->index = call->index;
  entry->locality = call->locality;
  entry->command_size = (uint16_t)call->size;
  entry->reply_size = (uint16_t)size;
  memcpy(entry->random, call->random, RANDOM);
  memcpy(entry->command, call->payload, call->size);
  memcpy(entry->reply, reply, size);
  return size;
}

/* The turns. */

/* Waits for its turn and makes the call; false where the journal is full, and from then on. */
static bool act(struct worker *worker, const struct call *call, uint8_t *reply, size_t *size) {
  if (worker->full) return false;
  uint64_t ticket = atomic_fetch_add(&next_ticket, 1);
  if (ticket >= capacity) {
    worker->full = true;
    return false;
  }
  for (int loads = 1; atomic_load(&serving) != ticket;) {
    if (loads < LOADS)
      loads++;
    else
      sched_yield();
  }
  *size = step(worker->name, call, reply);
  atomic_fetch_add(&serving, 1);
  return true;
}

/* The connections. */

enum end { CLOSED, FULL, CUT };

/* Reads until so many bytes are held, at most a whole frame's; false where fewer came. */
static bool hold(struct worker *worker, int fd, size_t size) {
  if (worker->start + size > AHEAD) {
    memmove(worker->room, worker->room + worker->start, worker->end - worker->start);
    worker->end -= worker->start;
    worker->start = 0;
  }
  while (worker->end - worker->start < size) {
    ssize_t count = recv(fd, worker->room + worker->end, AHEAD - worker->end, 0);
    if (count <= 0) return false;
    worker->end += (size_t)count;
  }
  return true;
}

/* Reads a frame, which is used where it stands; false where the connection has ended. */
static bool read_frame(struct worker *worker, int fd, struct call *call, enum end *end) {
  if (worker->start == worker->end) worker->start = worker->end = 0;
  bool head = hold(worker, fd, 4);
  *end = worker->start == worker->end ? CLOSED : CUT;
  if (!head) return false;
  const uint8_t *at = worker->room + worker->start;
  call->size = (size_t)at[0] << 24 | (size_t)at[1] << 16 | (size_t)at[2] << 8 | at[3];
  if (call->size > MOST_PAYLOAD || !hold(worker, fd, 4 + call->size)) return false;
  call->payload = worker->room + worker->start + 4;
  worker->start += 4 + call->size;
  return true;
}

/* Takes random bytes from the block, which is drawn anew where it is used up. */
static bool draw(struct worker *worker, uint8_t random[RANDOM]) {
  if (worker->drawn == DRAWN) {
    if (read(worker->entropy, worker->block, DRAWN) != DRAWN) return false;
    worker->drawn = 0;
  }
  memcpy(random, worker->block + worker->drawn, RANDOM);
  memset(worker->block + worker->drawn, 0, RANDOM);
  worker->drawn += RANDOM;
  return true;
}

/* Writes the frame whose payload stands behind its head. */
static bool write_frame(int fd, uint8_t *frame, size_t size) {
  frame[0] = frame[1] = 0;
  frame[2] = (uint8_t)(size >> 8);
  frame[3] = (uint8_t)size;
  for (size_t written = 0; written < 4 + size;) {
    ssize_t count = send(fd, frame + written, 4 + size - written, MSG_NOSIGNAL);
    if (count <= 0) return false;
    written += (size_t)count;
  }
  return true;
}

static enum end serve_connection(struct worker *worker, int fd) {
  struct call call = {.connection = worker->connections, .locality = worker->locality};
  uint8_t *reply = worker->frame + 4;
  enum end end;
  worker->start = worker->end = 0;
  for (;; call.index++) {
    size_t size;
    if (!read_frame(worker, fd, &call, &end)) return end;
    if (!draw(worker, call.random)) return CUT;
    bool acted = act(worker, &call, reply, &size);
    if (!acted) size = refuse(reply, JOURNAL_FULL);
    if (!write_frame(fd, worker->frame, size)) return CUT;
    if (!acted) return FULL;
  }
}

static void *serve_door(void *of) {
  struct worker *worker = of;
  while (worker->connections < worker->each) {
    int fd = accept4(worker->listener, NULL, NULL, SOCK_CLOEXEC);
    if (fd < 0) fail(5, worker->path);
    enum end end = serve_connection(worker, fd);
    close(fd);
    worker->connections++;
    worker->ended_full += end == FULL;
    worker->cut += end == CUT;
  }
  return NULL;
}

/* The beginning and the end. */

static uint64_t number(const char *word, uint64_t least, uint64_t most) {
  char *end;
  errno = 0;
  uint64_t found = strtoull(word, &end, 10);
  if (word[0] < '0' || word[0] > '9' || *end || errno || found < least || found > most) fail(2, word);
  return found;
}

static void read_seed(const char *path) {
  uint8_t room[CDI + 1];
  int fd = open(path, O_RDONLY | O_CLOEXEC);
  ssize_t count = fd < 0 ? -1 : read(fd, room, sizeof room);
  if (count < 0) fail(4, path);
  if (count != CDI) fail(8, path);
  memcpy(book.seed, room, CDI);
  close(fd);
}

static void open_book(uint64_t entries, uint64_t first) {
  static const uint8_t zeros[DIGEST];
  keyed_from(&book.unsalted, zeros);
  book.first = book.next = first;
  for (int slot = 0; slot < MOST_ROWS; slot++) book.order[slot] = (uint16_t)slot;
  capacity = entries;
  book.entries = malloc(entries * sizeof *book.entries);
  if (!book.entries) fail(3, "memory");
  /* Each page is touched before the first command. */
  memset(book.entries, 0, entries * sizeof *book.entries);
}

static void open_door(struct worker *worker, uint32_t name, const char *word, uint32_t each) {
  struct sockaddr_un address = {.sun_family = AF_UNIX};
  worker->path = word + 2;
  if (word[0] < '0' || word[0] > '7' || word[1] != ':' || !word[2]) fail(2, word);
  if (strlen(worker->path) >= sizeof address.sun_path) fail(5, word);
  strcpy(address.sun_path, worker->path);
  worker->name = name;
  worker->each = each;
  worker->locality = (uint8_t)(word[0] - '0');
  worker->drawn = DRAWN;
  worker->entropy = open("/dev/urandom", O_RDONLY | O_CLOEXEC);
  worker->listener = socket(AF_UNIX, SOCK_STREAM | SOCK_CLOEXEC, 0);
  if (worker->entropy < 0 || worker->listener < 0) fail(5, word);
  if (bind(worker->listener, (struct sockaddr *)&address, sizeof address) || listen(worker->listener, 128)) fail(5, word);
}

static uint8_t *put_number(uint8_t *out, uint64_t number, int size) {
  for (int i = size - 1; i >= 0; i--) *out++ = (uint8_t)(number >> 8 * i);
  return out;
}

static uint8_t *put_record(uint8_t *out, const struct entry *entry) {
  *out++ = 1;
  out = put_number(out, entry->caller, 4);
  out = put_number(out, entry->connection, 4);
  out = put_number(out, entry->index, 4);
  *out++ = entry->locality;
  memcpy(out, entry->random, RANDOM);
  out = put_number(out + RANDOM, entry->command_size, 2);
  memcpy(out, entry->command, entry->command_size);
  out = put_number(out + entry->command_size, entry->reply_size, 2);
  memcpy(out, entry->reply, entry->reply_size);
  return out + entry->reply_size;
}

static void write_all(int fd, const uint8_t *bytes, const uint8_t *end) {
  while (bytes < end) {
    ssize_t count = write(fd, bytes, (size_t)(end - bytes));
    if (count <= 0) fail(6, "journal");
    bytes += count;
  }
}

/* The journal of version 1, as docs/JOURNAL.md says. */
static void write_journal(int fd) {
  static uint8_t room[GATHERED];
  memcpy(room, "DPEJ\1", 5);
  uint8_t *end = put_number(room + 5, book.first, 8);
  for (uint32_t at = 0; at < book.length; at++) {
    if (room + GATHERED - end < (ptrdiff_t)sizeof(struct entry) + 8) {
      write_all(fd, room, end);
      end = room;
    }
    end = put_record(end, &book.entries[at]);
  }
  *end++ = 0xff;
  write_all(fd, room, put_number(end, book.length, 8));
  close(fd);
}

/* Only refusals are as short as 7 bytes. */
static uint32_t count_refused(void) {
  uint32_t refused = 0;
  for (uint32_t at = 0; at < book.length; at++) refused += book.entries[at].reply_size <= 7;
  return refused;
}

static void print_summary(int doors) {
  uint32_t connections = 0, full = 0, cut = 0;
  for (int i = 0; i < doors; i++) {
    connections += workers[i].connections;
    full += workers[i].ended_full;
    cut += workers[i].cut;
  }
  printf("connections %u\ncommands %u\nrefused %u\nfull %u\ncut %u\n", connections, book.length, count_refused(), full, cut);
  if (fflush(stdout)) fail(7, "output");
}

int main(int argc, char **argv) {
  int doors = argc - 6;
  if (doors < 1 || doors > MOST_DOORS) fail(2, "words");
  uint32_t each = (uint32_t)number(argv[3], 1, 65535);
  uint64_t entries = number(argv[4], 1, MOST_ENTRIES), first = number(argv[5], 0, UINT64_MAX);
  read_seed(argv[1]);
  open_book(entries, first);
  int journal = open(argv[2], O_WRONLY | O_CREAT | O_EXCL | O_CLOEXEC, 0600);
  if (journal < 0) fail(6, argv[2]);
  for (int i = 0; i < doors; i++) open_door(&workers[i], (uint32_t)i, argv[6 + i], each);
  for (int i = 0; i < doors; i++)
    if (pthread_create(&workers[i].thread, NULL, serve_door, &workers[i])) fail(3, "threads");
  for (int i = 0; i < doors; i++) pthread_join(workers[i].thread, NULL);
  write_journal(journal);
  print_summary(doors);
  return 0;
}
