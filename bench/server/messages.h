/* Commands read strictly from their payloads, and replies written, as docs/PROTOCOL.md says: InitializeContext,
   DeriveContext and Sign. Every other command is answered with code 16, and no text is looked into. */
#ifndef MESSAGES_H
#define MESSAGES_H

#include <stdbool.h>
#include <stddef.h>
#include <stdint.h>
#include <string.h>

enum { ACCEPTED = 0, NOT_A_COMMAND = 2, BAD_ARGUMENTS = 3, UNSUPPORTED = 16 };
enum { INITIALIZE_CONTEXT = 7, DERIVE_CONTEXT = 8, SIGN = 10 };
enum { MOST_KEYS = 12, MOST_PAYLOAD = 4096 };

/* The major types of items. */
enum { UNSIGNED = 0, STRING = 2, TEXT = 3, ARRAY = 4, MAP = 5, SIMPLE = 7 };

/* A value of a flat map. `number` is the number, the length of the bytes, or 0 and 1 for false and true. */
struct value {
  enum { ABSENT, NUMBER, BYTES, CHARACTERS, TRUTH } kind;
  uint64_t number;
  const uint8_t *bytes;
};

struct command {
  uint64_t number;
  bool unknown_key;
  struct value values[MOST_KEYS + 1];
};

struct reader {
  const uint8_t *at, *end;
};

static bool read_head(struct reader *reader, unsigned *major, uint64_t *argument) {
  static const uint64_t least[4] = {24, 1 << 8, 1 << 16, (uint64_t)1 << 32};
  if (reader->at == reader->end) return false;
  uint8_t first = *reader->at++;
  unsigned low = first & 31;
  *major = first >> 5;
  *argument = low;
  if (low < 24) return true;
  if (low > 27 || reader->end - reader->at < 1 << (low - 24)) return false;
  *argument = 0;
  for (int i = 0; i < 1 << (low - 24); i++) *argument = *argument << 8 | *reader->at++;
  return *argument >= least[low - 24];
}

/* The argument of a head of this type. */
static bool read_as(struct reader *reader, unsigned major, uint64_t *argument) {
  unsigned found;
  return read_head(reader, &found, argument) && found == major;
}

static bool read_value(struct reader *reader, struct value *value) {
  unsigned major;
  if (!read_head(reader, &major, &value->number)) return false;
  value->bytes = reader->at;
  switch (major) {
  case UNSIGNED:
    value->kind = NUMBER;
    return true;
  case STRING:
  case TEXT:
    value->kind = major == STRING ? BYTES : CHARACTERS;
    if (value->number > (uint64_t)(reader->end - reader->at)) return false;
    reader->at += value->number;
    return true;
  case SIMPLE:
    value->kind = TRUTH;
    value->number -= 20;
    return value->number <= 1;
  default:
    return false;
  }
}

/* The pairs of a map, with keys that rise, and nothing behind them. */
static bool read_pairs(struct reader *reader, uint64_t count, struct command *command) {
  uint64_t key, last = 0;
  for (uint64_t i = 0; i < count; i++) {
    struct value value;
    if (!read_as(reader, UNSIGNED, &key) || (i > 0 && key <= last) || !read_value(reader, &value)) return false;
    if (1 <= key && key <= MOST_KEYS)
      command->values[key] = value;
    else
      command->unknown_key = true;
    last = key;
  }
  return reader->at == reader->end;
}

/* Reads a payload. Its arguments aren't looked at yet. */
static unsigned read_payload(const uint8_t *payload, size_t size, struct command *command) {
  struct reader reader = {payload, payload + size};
  uint64_t count, session, length;
  memset(command, 0, sizeof *command);
  if (!read_as(&reader, ARRAY, &count) || count != 2 || !read_as(&reader, UNSIGNED, &session)) return NOT_A_COMMAND;
  if (!read_as(&reader, STRING, &length) || length != (uint64_t)(reader.end - reader.at)) return NOT_A_COMMAND;
  if (session != 0) return UNSUPPORTED;
  if (!read_as(&reader, ARRAY, &count) || count != 2 || !read_as(&reader, UNSIGNED, &command->number)) return NOT_A_COMMAND;
  if (!read_as(&reader, MAP, &count) || !read_pairs(&reader, count, command)) return NOT_A_COMMAND;
  return 1 <= command->number && command->number <= 16 ? ACCEPTED : NOT_A_COMMAND;
}

/* A line of the table of arguments: the kind, and the bounds of the number or of the length. */
struct argument {
  int kind;
  uint64_t least, most;
  bool required;
};

static const struct argument INITIALIZE_ARGUMENTS[] = {{TRUTH, 0, 1, false}, {TRUTH, 0, 1, false}};

static const struct argument DERIVE_ARGUMENTS[] = {
  {BYTES, 16, 16, false}, {BYTES, 64, 64, true},   {BYTES, 64, 64, false}, {BYTES, 0, 1024, false},
  {BYTES, 64, 64, true},  {NUMBER, 0, 3, true},    {BYTES, 64, 64, false}, {TRUTH, 0, 1, false},
  {TRUTH, 0, 1, false},   {NUMBER, 0, 7, false},   {TRUTH, 0, 1, false},   {TRUTH, 0, 1, false},
};

static const struct argument SIGN_ARGUMENTS[] = {
  {BYTES, 16, 16, false}, {BYTES, 0, 64, false}, {TRUTH, 0, 1, false}, {TRUTH, 0, 1, false}, {BYTES, 0, 2048, true},
};

static bool fits(const struct command *command, const struct argument *arguments, unsigned count) {
  if (command->unknown_key) return false;
  for (unsigned key = 1; key <= MOST_KEYS; key++) {
    const struct value *value = &command->values[key];
    if (value->kind == ABSENT) {
      if (key <= count && arguments[key - 1].required) return false;
      continue;
    }
    if (key > count) return false;
    const struct argument *argument = &arguments[key - 1];
    if ((int)value->kind != argument->kind) return false;
    if (value->number < argument->least || value->number > argument->most) return false;
  }
  return true;
}

static bool is_true(const struct command *command, unsigned key) {
  return command->values[key].kind == TRUTH && command->values[key].number == 1;
}

static bool is_false_or_absent(const struct command *command, unsigned key) {
  const struct value *value = &command->values[key];
  return value->kind == ABSENT || (value->kind == TRUTH && value->number == 0);
}

#define COUNT(table) (sizeof table / sizeof table[0])

/* The class of a payload: code 0 and a command, or the code that refuses it. */
static unsigned read_command(const uint8_t *payload, size_t size, struct command *command) {
  unsigned code = read_payload(payload, size, command);
  if (code != ACCEPTED) return code;
  bool outside, right;
  switch (command->number) {
  case INITIALIZE_CONTEXT:
    outside = is_true(command, 1);
    right = fits(command, INITIALIZE_ARGUMENTS, COUNT(INITIALIZE_ARGUMENTS));
    break;
  case DERIVE_CONTEXT:
    outside = is_true(command, 11);
    right = fits(command, DERIVE_ARGUMENTS, COUNT(DERIVE_ARGUMENTS)) &&
            (command->values[3].kind == ABSENT) != (command->values[4].kind == ABSENT);
    break;
  case SIGN:
    outside = is_false_or_absent(command, 4);
    right = fits(command, SIGN_ARGUMENTS, COUNT(SIGN_ARGUMENTS));
    break;
  default:
    return UNSUPPORTED;
  }
  return outside ? UNSUPPORTED : right ? ACCEPTED : BAD_ARGUMENTS;
}

static uint8_t *put_head(uint8_t *out, unsigned major, unsigned argument) {
  if (argument < 24) {
    *out++ = (uint8_t)(major << 5 | argument);
  } else {
    *out++ = (uint8_t)(major << 5 | 24);
    *out++ = (uint8_t)argument;
  }
  return out;
}

/* A pair of a reply's map. */
struct field {
  unsigned key;
  const uint8_t *bytes;
  unsigned size;
};

/* Writes a reply whose message has fewer than 256 bytes, and answers its length. */
static size_t write_reply(uint8_t *out, unsigned code, const struct field *fields, unsigned count) {
  uint8_t message[256], *end = put_head(message, ARRAY, 2);
  end = put_head(end, UNSIGNED, code);
  end = put_head(end, MAP, count);
  for (unsigned i = 0; i < count; i++) {
    end = put_head(end, UNSIGNED, fields[i].key);
    end = put_head(end, STRING, fields[i].size);
    memcpy(end, fields[i].bytes, fields[i].size);
    end += fields[i].size;
  }
  size_t size = (size_t)(end - message);
  uint8_t *at = put_head(out, ARRAY, 2);
  at = put_head(at, UNSIGNED, 0);
  at = put_head(at, STRING, (unsigned)size);
  memcpy(at, message, size);
  return (size_t)(at - out) + size;
}

static size_t refuse(uint8_t *out, unsigned code) { return write_reply(out, code, NULL, 0); }

#endif
