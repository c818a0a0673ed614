#include "dpe.h"

/* CBOR's major types, and the two booleans as they stand in a message. */
enum { UNSIGNED = 0, BYTES = 2, TEXT = 3, ARRAY = 4, MAP = 5 };
enum { BOOLEAN_TRUE = 0xf5, BOOLEAN_FALSE = 0xf4 };

enum command {
    GET_PROFILE = 1,
    INITIALIZE_CONTEXT = 7,
    DERIVE_CONTEXT = 8,
    SIGN = 10,
    SEAL = 11,
    UNSEAL = 12,
    ROTATE_CONTEXT_HANDLE = 14,
    DESTROY_CONTEXT = 15
};

enum {
    FRAME_HEAD = 4,
    /* Before a message stand the frame's head, `82 00` and the head of a byte string, which has 3 bytes or fewer. */
    MESSAGE_AT = FRAME_HEAD + 2 + 3
};

static void copy(uint8_t *to, const uint8_t *from, size_t count)
{
    for (size_t i = 0; i < count; i++)
        to[i] = from[i];
}

/* Overwrites bytes in a way that a compiler doesn't leave out. */
static void clear(uint8_t *bytes, size_t count)
{
    volatile uint8_t *each = bytes;
    for (size_t i = 0; i < count; i++)
        each[i] = 0;
}

/* Writing. All lengths are checked before, so that everything has room. */

struct writer {
    uint8_t *room;
    size_t at;
};

static void put(struct writer *writer, size_t byte)
{
    writer->room[writer->at++] = (uint8_t)byte;
}

/* The shortest head; the arguments of this client's commands are below 65,536. */
static void put_head(struct writer *writer, unsigned major, size_t argument)
{
    size_t type = (size_t)major << 5;
    if (argument < 24) {
        put(writer, type | argument);
    } else if (argument < 256) {
        put(writer, type | 24);
        put(writer, argument);
    } else {
        put(writer, type | 25);
        put(writer, argument >> 8);
        put(writer, argument & 255);
    }
}

static void put_bytes(struct writer *writer, unsigned key, const uint8_t *bytes, size_t count)
{
    put_head(writer, UNSIGNED, key);
    put_head(writer, BYTES, count);
    copy(writer->room + writer->at, bytes, count);
    writer->at += count;
}

static void put_number(struct writer *writer, unsigned key, size_t number)
{
    put_head(writer, UNSIGNED, key);
    put_head(writer, UNSIGNED, number);
}

static void put_boolean(struct writer *writer, unsigned key, bool value)
{
    put_head(writer, UNSIGNED, key);
    put(writer, value ? BOOLEAN_TRUE : BOOLEAN_FALSE);
}

static struct writer begin(struct dpe *dpe, enum command command, unsigned pairs)
{
    struct writer writer = {dpe->room, MESSAGE_AT};
    put_head(&writer, ARRAY, 2);
    put_head(&writer, UNSIGNED, command);
    put_head(&writer, MAP, pairs);
    return writer;
}

/* Reading. `right` becomes false at the first byte that isn't as it should be, and stays so. */

struct reader {
    const uint8_t *next;
    size_t left;
    bool right;
};

static const uint8_t *take(struct reader *reader, size_t count)
{
    const uint8_t *taken = reader->next;
    if (!reader->right || count > reader->left) {
        reader->right = false;
        return NULL;
    }
    reader->next += count;
    reader->left -= count;
    return taken;
}

static void require(struct reader *reader, bool holds)
{
    reader->right = reader->right && holds;
}

/* The argument of a head of this major type, in the shortest form; more than 2 bytes of it are in no reply. */
static size_t take_head(struct reader *reader, unsigned major)
{
    const uint8_t *first = take(reader, 1);
    if (first == NULL)
        return 0;
    require(reader, *first >> 5 == major);
    size_t low = *first & 31u;
    if (low < 24)
        return low;
    if (low == 24) {
        const uint8_t *byte = take(reader, 1);
        require(reader, byte != NULL && *byte >= 24);
        return reader->right ? *byte : 0;
    }
    const uint8_t *bytes = low == 25 ? take(reader, 2) : NULL;
    require(reader, bytes != NULL && bytes[0] > 0);
    return reader->right ? (size_t)bytes[0] << 8 | bytes[1] : 0;
}

static void take_argument(struct reader *reader, unsigned major, size_t wanted)
{
    size_t argument = take_head(reader, major);
    require(reader, argument == wanted);
}

/* A key and a byte string of this length. */
static const uint8_t *take_bytes(struct reader *reader, unsigned key, size_t length)
{
    take_argument(reader, UNSIGNED, key);
    take_argument(reader, BYTES, length);
    return take(reader, length);
}

static const uint8_t *take_handle(struct reader *reader, unsigned key)
{
    return take_bytes(reader, key, DPE_HANDLE_BYTES);
}

static void take_number(struct reader *reader, unsigned key, size_t wanted)
{
    take_argument(reader, UNSIGNED, key);
    take_argument(reader, UNSIGNED, wanted);
}

static bool is_whole(const struct reader *reader)
{
    return reader->right && reader->left == 0;
}

static bool is_refusal(size_t code)
{
    return code == 2 || code == 3 || code == 5 || (16 <= code && code <= 29);
}

/* One command and its reply. */

/* Puts what stands before the message, and sends the frame. */
static bool send_frame(struct dpe *dpe, const struct writer *message)
{
    size_t length = message->at - MESSAGE_AT;
    size_t head = length < 24 ? 1 : length < 256 ? 2 : 3;
    size_t payload = 2 + head + length;
    size_t start = MESSAGE_AT - head - 2 - FRAME_HEAD;
    struct writer writer = {dpe->room, start};
    put(&writer, 0);
    put(&writer, 0);
    put(&writer, payload >> 8);
    put(&writer, payload & 255);
    put_head(&writer, ARRAY, 2);
    put_head(&writer, UNSIGNED, 0);
    put_head(&writer, BYTES, length);
    return dpe->transport.send(dpe->transport.context, dpe->room + start, FRAME_HEAD + payload);
}

/* Receives a frame into the room. One that is longer than any reply is none. */
static enum dpe_status receive_frame(struct dpe *dpe, struct reader *payload)
{
    uint8_t head[FRAME_HEAD];
    if (!dpe->transport.receive(dpe->transport.context, head, sizeof head))
        return DPE_LOST;
    size_t length = (size_t)head[2] << 8 | head[3];
    if (head[0] != 0 || head[1] != 0 || length > DPE_ROOM)
        return DPE_NO_REPLY;
    if (!dpe->transport.receive(dpe->transport.context, dpe->room, length))
        return DPE_LOST;
    *payload = (struct reader){dpe->room, length, true};
    return DPE_OK;
}

/* The reply's code; where it is DPE_OK, `fields` stands at the map. */
static enum dpe_status take_code(struct reader *fields)
{
    take_argument(fields, ARRAY, 2);
    take_argument(fields, UNSIGNED, 0);
    size_t inside = take_head(fields, BYTES);
    require(fields, inside == fields->left);
    take_argument(fields, ARRAY, 2);
    size_t code = take_head(fields, UNSIGNED);
    if (code == 0)
        return fields->right ? DPE_OK : DPE_NO_REPLY;
    take_argument(fields, MAP, 0);
    return is_whole(fields) && is_refusal(code) ? (enum dpe_status)code : DPE_NO_REPLY;
}

static enum dpe_status exchange(struct dpe *dpe, const struct writer *message, struct reader *fields)
{
    enum dpe_status status = DPE_LOST;
    if (send_frame(dpe, message))
        status = receive_frame(dpe, fields);
    if (status == DPE_OK)
        status = take_code(fields);
    if (status < 0 || status == DPE_JOURNAL_FULL)
        dpe->usable = false;
    return status;
}

/* Ends each call: `handle` is the one that the command used, and `renewed` its new one or NULL. Where the reply wasn't read
 * to its end as it should be, the connection is of no more use. */
static enum dpe_status finish(struct dpe *dpe, enum dpe_status status, const struct reader *fields,
                              struct dpe_handle *handle, const uint8_t *renewed)
{
    if (status == DPE_OK && !is_whole(fields)) {
        status = DPE_NO_REPLY;
        dpe->usable = false;
    }
    if (handle == NULL || handle->state == DPE_DEFAULT)
        return status;
    if (status == DPE_OK) {
        handle->state = renewed != NULL ? DPE_LIVE : DPE_NONE;
        if (renewed != NULL)
            copy(handle->bytes, renewed, DPE_HANDLE_BYTES);
    } else if (status == DPE_LOST || status == DPE_NO_REPLY) {
        handle->state = DPE_UNSURE;
    }
    return status;
}

/* Keeps a handle that a right reply brought for a new context. */
static void keep(struct dpe_handle *handle, enum dpe_status status, const uint8_t *bytes)
{
    if (status != DPE_OK)
        return;
    handle->state = DPE_LIVE;
    copy(handle->bytes, bytes, DPE_HANDLE_BYTES);
}

/* No message, plaintext or hidden input stays in the room. */
static enum dpe_status end(struct dpe *dpe, enum dpe_status status)
{
    clear(dpe->room, sizeof dpe->room);
    return status;
}

static bool may_use(const struct dpe *dpe, const struct dpe_handle *handle)
{
    return dpe->usable && (handle->state == DPE_LIVE || handle->state == DPE_DEFAULT);
}

/* How many pairs name the handle: none where the default context is meant. */
static unsigned names(const struct dpe_handle *handle)
{
    return handle->state == DPE_DEFAULT ? 0 : 1;
}

static void put_handle(struct writer *writer, const struct dpe_handle *handle)
{
    if (names(handle) > 0)
        put_bytes(writer, 1, handle->bytes, DPE_HANDLE_BYTES);
}

void dpe_open(struct dpe *dpe, struct dpe_transport transport)
{
    dpe->transport = transport;
    dpe->usable = true;
    clear(dpe->room, sizeof dpe->room);
}

enum dpe_status dpe_check_profile(struct dpe *dpe)
{
    static const uint8_t name[] = {'d', 'p', 'e', '-', 's', 'y', 'm', 'm', 'e', 't', 'r', 'i', 'c', '-', '2'};
    if (!dpe->usable)
        return DPE_NOT_SENT;
    struct writer writer = begin(dpe, GET_PROFILE, 0);
    struct reader fields;
    enum dpe_status status = exchange(dpe, &writer, &fields);
    if (status == DPE_OK) {
        take_argument(&fields, MAP, 4);
        take_argument(&fields, UNSIGNED, 1);
        take_argument(&fields, TEXT, sizeof name);
        const uint8_t *found = take(&fields, sizeof name);
        for (size_t i = 0; found != NULL && i < sizeof name; i++)
            require(&fields, found[i] == name[i]);
        take_number(&fields, 2, 4096);
        take_number(&fields, 3, 1024);
        take_number(&fields, 4, 32);
    }
    return end(dpe, finish(dpe, status, &fields, NULL, NULL));
}

enum dpe_status dpe_initialize(struct dpe *dpe, bool is_default, struct dpe_handle *root)
{
    if (!dpe->usable)
        return DPE_NOT_SENT;
    struct writer writer = begin(dpe, INITIALIZE_CONTEXT, is_default ? 1 : 0);
    if (is_default)
        put_boolean(&writer, 2, true);
    struct reader fields;
    const uint8_t *made = NULL;
    enum dpe_status status = exchange(dpe, &writer, &fields);
    if (status == DPE_OK) {
        take_argument(&fields, MAP, 1);
        made = take_handle(&fields, 1);
    }
    status = finish(dpe, status, &fields, NULL, NULL);
    keep(root, status, made);
    return end(dpe, status);
}

static bool is_right_layer(const struct dpe_layer *layer)
{
    return layer->code != NULL && layer->authority != NULL && (unsigned)layer->mode <= DPE_RECOVERY &&
           (layer->configuration == NULL || layer->descriptor.length == 0) &&
           layer->descriptor.length <= DPE_MOST_DESCRIPTOR && (!layer->moves || layer->target < DPE_LOCALITIES);
}

static void put_layer(struct writer *writer, const struct dpe_layer *layer, bool retain)
{
    put_bytes(writer, 2, layer->code, DPE_INPUT_BYTES);
    if (layer->configuration != NULL)
        put_bytes(writer, 3, layer->configuration, DPE_INPUT_BYTES);
    else
        put_bytes(writer, 4, layer->descriptor.bytes, layer->descriptor.length);
    put_bytes(writer, 5, layer->authority, DPE_INPUT_BYTES);
    put_number(writer, 6, layer->mode);
    if (layer->hidden != NULL)
        put_bytes(writer, 7, layer->hidden, DPE_INPUT_BYTES);
    if (retain)
        put_boolean(writer, 8, true);
    if (layer->derives_nothing)
        put_boolean(writer, 9, false);
    if (layer->moves)
        put_number(writer, 10, layer->target);
    if (layer->is_default)
        put_boolean(writer, 12, true);
}

enum dpe_status dpe_derive(struct dpe *dpe, struct dpe_handle *parent, bool retain, const struct dpe_layer *layer,
                           struct dpe_handle *child)
{
    if (!may_use(dpe, parent) || parent == child || !is_right_layer(layer))
        return DPE_NOT_SENT;
    unsigned pairs = 4u + (layer->hidden != NULL) + retain + layer->derives_nothing + layer->moves + layer->is_default;
    struct writer writer = begin(dpe, DERIVE_CONTEXT, names(parent) + pairs);
    put_handle(&writer, parent);
    put_layer(&writer, layer, retain);
    struct reader fields;
    const uint8_t *made = NULL, *renewed = NULL;
    enum dpe_status status = exchange(dpe, &writer, &fields);
    if (status == DPE_OK) {
        take_argument(&fields, MAP, retain ? 2 : 1);
        made = take_handle(&fields, 1);
        if (retain)
            renewed = take_handle(&fields, 2);
    }
    status = finish(dpe, status, &fields, parent, renewed);
    keep(child, status, made);
    return end(dpe, status);
}

/* What Sign, Seal and Unseal begin with, and then `pairs` more. */
static struct writer begin_use(struct dpe *dpe, enum command command, unsigned pairs, const struct dpe_handle *handle,
                               bool retain, struct dpe_bytes label)
{
    struct writer writer = begin(dpe, command, names(handle) + (label.length > 0) + retain + pairs);
    put_handle(&writer, handle);
    if (label.length > 0)
        put_bytes(&writer, 2, label.bytes, label.length);
    if (retain)
        put_boolean(&writer, 3, true);
    return writer;
}

/* Sends it, and copies what the command made, which has to have `count` bytes, to `made`. */
static enum dpe_status end_use(struct dpe *dpe, const struct writer *writer, struct dpe_handle *handle, bool retain,
                               size_t count, uint8_t *made, size_t *length)
{
    struct reader fields;
    const uint8_t *renewed = NULL;
    const uint8_t *came = NULL;
    enum dpe_status status = exchange(dpe, writer, &fields);
    if (status == DPE_OK) {
        take_argument(&fields, MAP, retain ? 2 : 1);
        if (retain)
            renewed = take_handle(&fields, 1);
        came = take_bytes(&fields, 2, count);
    }
    status = finish(dpe, status, &fields, handle, renewed);
    *length = status == DPE_OK ? count : 0;
    copy(made, came, *length);
    return end(dpe, status);
}

enum dpe_status dpe_sign(struct dpe *dpe, struct dpe_handle *handle, bool retain, struct dpe_bytes label,
                         struct dpe_bytes message, uint8_t signature[DPE_SIGNATURE_BYTES])
{
    size_t length;
    if (!may_use(dpe, handle) || label.length > DPE_MOST_LABEL || message.length > DPE_MOST_DATA)
        return DPE_NOT_SENT;
    struct writer writer = begin_use(dpe, SIGN, 2, handle, retain, label);
    put_boolean(&writer, 4, true);
    put_bytes(&writer, 5, message.bytes, message.length);
    return end_use(dpe, &writer, handle, retain, DPE_SIGNATURE_BYTES, signature, &length);
}

enum dpe_status dpe_seal(struct dpe *dpe, struct dpe_handle *handle, bool retain, struct dpe_bytes label,
                         struct dpe_policy policy, struct dpe_bytes plaintext, uint8_t box[DPE_MOST_BOX], size_t *length)
{
    *length = 0;
    if (!may_use(dpe, handle) || label.length > DPE_MOST_LABEL || plaintext.length > DPE_MOST_DATA ||
        policy.modes > DPE_ALL_MODES)
        return DPE_NOT_SENT;
    bool some_localities = policy.localities != DPE_ALL_LOCALITIES;
    bool some_modes = policy.modes != DPE_ALL_MODES;
    struct writer writer = begin_use(dpe, SEAL, 1u + some_localities + some_modes, handle, retain, label);
    if (some_localities)
        put_number(&writer, 4, policy.localities);
    if (some_modes)
        put_number(&writer, 5, policy.modes);
    put_bytes(&writer, 6, plaintext.bytes, plaintext.length);
    return end_use(dpe, &writer, handle, retain, DPE_BOX_OVERHEAD + plaintext.length, box, length);
}

enum dpe_status dpe_unseal(struct dpe *dpe, struct dpe_handle *handle, bool retain, struct dpe_bytes label,
                           struct dpe_bytes box, uint8_t plaintext[DPE_MOST_DATA], size_t *length)
{
    *length = 0;
    if (!may_use(dpe, handle) || label.length > DPE_MOST_LABEL || box.length < DPE_BOX_OVERHEAD ||
        box.length > DPE_MOST_BOX)
        return DPE_NOT_SENT;
    struct writer writer = begin_use(dpe, UNSEAL, 1, handle, retain, label);
    put_bytes(&writer, 5, box.bytes, box.length);
    size_t opened = box.length - DPE_BOX_OVERHEAD;
    return end_use(dpe, &writer, handle, retain, opened, plaintext, length);
}

enum dpe_status dpe_rotate(struct dpe *dpe, struct dpe_handle *handle, bool to_be_default)
{
    if (!may_use(dpe, handle))
        return DPE_NOT_SENT;
    struct writer writer = begin(dpe, ROTATE_CONTEXT_HANDLE, names(handle) + to_be_default);
    put_handle(&writer, handle);
    if (to_be_default)
        put_boolean(&writer, 2, true);
    struct reader fields;
    const uint8_t *renewed = NULL;
    enum dpe_status status = exchange(dpe, &writer, &fields);
    if (status == DPE_OK) {
        take_argument(&fields, MAP, 1);
        renewed = take_handle(&fields, 1);
    }
    status = finish(dpe, status, &fields, handle, renewed);
    if (handle->state == DPE_DEFAULT && !to_be_default)
        keep(handle, status, renewed);
    return end(dpe, status);
}

enum dpe_status dpe_destroy(struct dpe *dpe, struct dpe_handle *handle, bool recursively)
{
    if (!may_use(dpe, handle))
        return DPE_NOT_SENT;
    struct writer writer = begin(dpe, DESTROY_CONTEXT, names(handle) + recursively);
    put_handle(&writer, handle);
    if (recursively)
        put_boolean(&writer, 2, true);
    struct reader fields;
    enum dpe_status status = exchange(dpe, &writer, &fields);
    if (status == DPE_OK)
        take_argument(&fields, MAP, 0);
    return end(dpe, finish(dpe, status, &fields, handle, NULL));
}

/* Unseal of no bytes is refused whatever the context: as no box where the handle is live here, and else for the handle. */
enum dpe_status dpe_find_out(struct dpe *dpe, struct dpe_handle *handle)
{
    if (!dpe->usable || handle->state == DPE_NONE)
        return DPE_NOT_SENT;
    struct writer writer = begin_use(dpe, UNSEAL, 1, handle, false, (struct dpe_bytes){NULL, 0});
    put_bytes(&writer, 5, NULL, 0);
    struct reader fields;
    enum dpe_status status = exchange(dpe, &writer, &fields);
    if (status == DPE_OK) {
        dpe->usable = false;
        status = DPE_NO_REPLY;
    }
    if (status == DPE_BOX_MALFORMED) {
        handle->state = handle->state == DPE_DEFAULT ? DPE_DEFAULT : DPE_LIVE;
        status = DPE_OK;
    } else if (status == DPE_NO_SUCH_HANDLE) {
        handle->state = DPE_NONE;
    }
    return end(dpe, status);
}

const char *dpe_status_name(enum dpe_status status)
{
    switch (status) {
    case DPE_OK: return "ok";
    case DPE_INVALID_COMMAND: return "invalid command";
    case DPE_INVALID_ARGUMENT: return "invalid argument";
    case DPE_SEED_LOCKED: return "seed locked";
    case DPE_UNSUPPORTED: return "unsupported";
    case DPE_NO_SUCH_HANDLE: return "no such handle";
    case DPE_WRONG_LOCALITY: return "wrong locality";
    case DPE_DERIVE_NOT_ALLOWED: return "derive not allowed";
    case DPE_TOO_DEEP: return "too deep";
    case DPE_CONTEXTS_FULL: return "contexts full";
    case DPE_BOX_MALFORMED: return "box malformed";
    case DPE_BOX_REFUSED: return "box refused";
    case DPE_POLICY_REFUSED: return "policy refused";
    case DPE_SERIALS_SPENT: return "serials spent";
    case DPE_JOURNAL_FULL: return "journal full";
    case DPE_ROOT_LOCALITY: return "root locality";
    case DPE_NO_DEFAULT: return "no default";
    case DPE_DEFAULT_TAKEN: return "default taken";
    case DPE_NOT_SENT: return "not sent";
    case DPE_LOST: return "lost";
    case DPE_NO_REPLY: return "no reply";
    }
    return "unknown";
}
