/* Tries how strict dpe.c is: on right replies, on each of them with any one byte changed, cut short or made longer, and on
 * replies that say the right thing in a wrong encoding. Everything comes from memory. Ends with 1 at a fault. */
#include <stdio.h>
#include <string.h>

#include "dpe.h"

enum { MOST_FRAME = 4 + 4096 };

/* A transport in memory: what it gives, and what it was given. */
struct memory {
    uint8_t given[MOST_FRAME], sent[MOST_FRAME];
    size_t length, read, written;
};

static struct memory memory;
static unsigned faults, tries;

static bool keep_sent(void *context, const uint8_t *bytes, size_t count)
{
    struct memory *all = context;
    if (count > sizeof all->sent - all->written)
        return false;
    memcpy(all->sent + all->written, bytes, count);
    all->written += count;
    return true;
}

static bool give(void *context, uint8_t *bytes, size_t count)
{
    struct memory *all = context;
    if (count > all->length - all->read)
        return false;
    memcpy(bytes, all->given + all->read, count);
    all->read += count;
    return true;
}

/* The commands, each on a connection of its own whose only reply is what stands in the memory. */
enum call {
    PROFILE,
    INITIALIZE,
    DERIVE,
    DERIVE_RETAIN,
    SIGN,
    SIGN_RETAIN,
    SEAL,
    SEAL_RETAIN,
    UNSEAL,
    UNSEAL_RETAIN,
    ROTATE,
    DESTROY
};

static const struct dpe_bytes NO_LABEL = {NULL, 0};
static const struct dpe_policy EVERYBODY = {DPE_ALL_LOCALITIES, DPE_ALL_MODES};

static enum dpe_status run_call(struct dpe *dpe, enum call call, struct dpe_handle *handle)
{
    static uint8_t made[DPE_MOST_BOX], input[DPE_INPUT_BYTES];
    const struct dpe_layer layer = {.code = input, .configuration = input, .authority = input, .mode = DPE_NORMAL};
    const struct dpe_bytes data = {input, 1}, box = {made, DPE_BOX_OVERHEAD + 1};
    struct dpe_handle other = {0};
    size_t length = 0;
    switch (call) {
    case PROFILE: return dpe_check_profile(dpe);
    case INITIALIZE: return dpe_initialize(dpe, false, &other);
    case DERIVE:
    case DERIVE_RETAIN: return dpe_derive(dpe, handle, call == DERIVE_RETAIN, &layer, &other);
    case SIGN:
    case SIGN_RETAIN: return dpe_sign(dpe, handle, call == SIGN_RETAIN, NO_LABEL, data, made);
    case SEAL:
    case SEAL_RETAIN: return dpe_seal(dpe, handle, call == SEAL_RETAIN, NO_LABEL, EVERYBODY, data, made, &length);
    case UNSEAL:
    case UNSEAL_RETAIN: return dpe_unseal(dpe, handle, call == UNSEAL_RETAIN, NO_LABEL, box, made, &length);
    case ROTATE: return dpe_rotate(dpe, handle, false);
    case DESTROY: return dpe_destroy(dpe, handle, true);
    }
    return DPE_NOT_SENT;
}

static enum dpe_status answer(enum call call)
{
    static struct dpe dpe;
    struct dpe_handle handle = {.state = DPE_LIVE};
    memory.read = memory.written = 0;
    dpe_open(&dpe, (struct dpe_transport){&memory, keep_sent, give});
    tries++;
    enum dpe_status status = run_call(&dpe, call, &handle);
    /* A connection is of no more use exactly where its reply wasn't taken, or the journal is full. */
    if (dpe.usable != (status >= 0 && status != DPE_JOURNAL_FULL)) {
        printf("call %d, status %d: usable is wrong\n", (int)call, (int)status);
        faults++;
    }
    return status;
}

static void expect(const char *what, enum call call, enum dpe_status wanted, enum dpe_status found)
{
    if (found == wanted)
        return;
    printf("call %d, %s: %s, and not %s\n", (int)call, what, dpe_status_name(found), dpe_status_name(wanted));
    faults++;
}

static void put_frame(const uint8_t *payload, size_t length)
{
    const uint8_t head[] = {0, 0, (uint8_t)(length >> 8), (uint8_t)length};
    memcpy(memory.given, head, sizeof head);
    memcpy(memory.given + sizeof head, payload, length);
    memory.length = sizeof head + length;
}

/* A right reply: parts that are fixed, and between them runs of bytes of any value. */
struct reply {
    enum call call;
    const char *fixed[3]; /* hexadecimal digits */
    size_t free[3];       /* how many bytes of any value follow each */
};

static const struct reply REPLIES[] = {
    {PROFILE, {"8200581f8200a4016f6470652d73796d6d65747269632d320219100003190400041820"}, {0}},
    {INITIALIZE, {"8200558200a10150"}, {16}},
    {DERIVE, {"8200558200a10150"}, {16}},
    {DERIVE_RETAIN, {"820058278200a20150", "0250"}, {16, 16}},
    {SIGN, {"820058468200a1025840"}, {64}},
    {SIGN_RETAIN, {"820058588200a20150", "025840"}, {16, 64}},
    {SEAL, {"8200585c8200a1025856"}, {86}},
    {SEAL_RETAIN, {"8200586e8200a20150", "025856"}, {16, 86}},
    {UNSEAL, {"8200468200a10241"}, {1}},
    {UNSEAL_RETAIN, {"820058188200a20150", "0241"}, {16, 1}},
    {ROTATE, {"8200558200a10150"}, {16}},
    {DESTROY, {"8200438200a0"}, {0}},
};

static size_t put_digits(uint8_t *bytes, const char *digits)
{
    size_t count = 0;
    for (unsigned byte; sscanf(digits + 2 * count, "%2x", &byte) == 1; count++)
        bytes[count] = (uint8_t)byte;
    return count;
}

/* Writes the payload, and marks the bytes that may have any value. */
static size_t build(const struct reply *reply, uint8_t payload[MOST_FRAME], bool any[MOST_FRAME])
{
    size_t length = 0;
    memset(any, 0, MOST_FRAME * sizeof any[0]);
    for (size_t part = 0; part < 3 && reply->fixed[part] != NULL; part++) {
        length += put_digits(payload + length, reply->fixed[part]);
        for (size_t i = 0; i < reply->free[part]; i++, length++) {
            payload[length] = 0x5a;
            any[length] = true;
        }
    }
    return length;
}

static void try_changes(const struct reply *reply)
{
    static uint8_t payload[MOST_FRAME];
    static bool any[MOST_FRAME];
    size_t length = build(reply, payload, any);
    put_frame(payload, length);
    expect("right reply", reply->call, DPE_OK, answer(reply->call));
    for (size_t at = 0; at < length; at++) {
        for (unsigned change = 1; change < 256; change++) {
            put_frame(payload, length);
            memory.given[4 + at] ^= (uint8_t)change;
            enum dpe_status status = answer(reply->call);
            /* One byte makes a refusal of an empty map with code 0, and of nothing else. */
            bool refusal = reply->call == DESTROY && at == 4 && status > 0;
            if (!refusal)
                expect("a byte changed", reply->call, any[at] ? DPE_OK : DPE_NO_REPLY, status);
        }
    }
    for (size_t cut = 0; cut < length; cut++) {
        put_frame(payload, cut);
        expect("cut short", reply->call, DPE_NO_REPLY, answer(reply->call));
        memory.length = cut;
        expect("the stream ends", reply->call, DPE_LOST, answer(reply->call));
    }
    payload[length] = 0;
    put_frame(payload, length + 1);
    expect("a byte behind", reply->call, DPE_NO_REPLY, answer(reply->call));
    for (const struct reply *other = REPLIES; other < REPLIES + sizeof REPLIES / sizeof *REPLIES; other++) {
        put_frame(payload, build(other, payload, any));
        bool alike = strcmp(other->fixed[0], reply->fixed[0]) == 0;
        expect("another command's reply", reply->call, alike ? DPE_OK : DPE_NO_REPLY, answer(reply->call));
    }
}

static void expect_payload(const char *digits, enum dpe_status wanted)
{
    uint8_t payload[64];
    put_frame(payload, put_digits(payload, digits));
    expect(digits, DESTROY, wanted, answer(DESTROY));
}

static void try_refusals(void)
{
    for (unsigned code = 1; code < 24; code++) {
        char digits[16];
        bool known = code == 2 || code == 3 || code == 5 || code >= 16;
        snprintf(digits, sizeof digits, "82004382%02xa0", code);
        expect_payload(digits, known ? (enum dpe_status)code : DPE_NO_REPLY);
    }
    expect_payload("8200448218" "18" "a0", DPE_POLICY_REFUSED);
    expect_payload("8200448218" "1a" "a0", DPE_JOURNAL_FULL);
    expect_payload("8200448218" "1b" "a0", DPE_ROOT_LOCALITY);
    expect_payload("8200448218" "1c" "a0", DPE_NO_DEFAULT);
    expect_payload("8200448218" "1d" "a0", DPE_DEFAULT_TAKEN);
    expect_payload("8200448218" "1e" "a0", DPE_NO_REPLY);
    expect_payload("8200448218" "11" "a0", DPE_NO_REPLY); /* a code in more bytes than it needs */
    expect_payload("820045821900" "11" "a0", DPE_NO_REPLY);
    expect_payload("8200448211b800", DPE_NO_REPLY); /* a map's head in more bytes than it needs */
    expect_payload("820058048200a000", DPE_NO_REPLY);
    expect_payload("82005803" "8200a0", DPE_NO_REPLY);
    expect_payload("8200590003" "8200a0", DPE_NO_REPLY);
    expect_payload("82005a00000003" "8200a0", DPE_NO_REPLY);
    expect_payload("82005f43" "8200a0" "ff", DPE_NO_REPLY);
    expect_payload("82180043" "8200a0", DPE_NO_REPLY);
    expect_payload("82014382" "00a0", DPE_NO_REPLY); /* session 1 */
    expect_payload("820045" "8211a101f4", DPE_NO_REPLY); /* a refusal with a map */
    expect_payload("820044" "8211a0" "00", DPE_NO_REPLY); /* a byte behind the map */
    expect_payload("820044" "8200a0" "00", DPE_NO_REPLY);
}

/* What is out of range isn't sent, and neither is anything with a handle that isn't live. */
static void try_arguments(void)
{
    static struct dpe dpe;
    static uint8_t made[DPE_MOST_BOX], input[DPE_MOST_BOX + 1];
    struct dpe_handle none = {0}, live = {.state = DPE_LIVE};
    const struct dpe_bytes data = {input, 1}, label = {input, DPE_MOST_LABEL + 1}, much = {input, DPE_MOST_DATA + 1},
                           box = {input, DPE_MOST_BOX + 1};
    const struct dpe_policy modes = {DPE_ALL_LOCALITIES, DPE_ALL_MODES + 1};
    size_t length;
    memory.written = 0;
    dpe_open(&dpe, (struct dpe_transport){&memory, keep_sent, give});
    expect("no handle", ROTATE, DPE_NOT_SENT, dpe_rotate(&dpe, &none, false));
    expect("no handle to ask for", ROTATE, DPE_NOT_SENT, dpe_find_out(&dpe, &none));
    expect("label", SIGN, DPE_NOT_SENT, dpe_sign(&dpe, &live, true, label, data, made));
    expect("message", SIGN, DPE_NOT_SENT, dpe_sign(&dpe, &live, true, NO_LABEL, much, made));
    expect("modes", SEAL, DPE_NOT_SENT, dpe_seal(&dpe, &live, true, NO_LABEL, modes, data, made, &length));
    expect("plaintext", SEAL, DPE_NOT_SENT, dpe_seal(&dpe, &live, true, NO_LABEL, EVERYBODY, much, made, &length));
    expect("long box", UNSEAL, DPE_NOT_SENT, dpe_unseal(&dpe, &live, true, NO_LABEL, box, made, &length));
    expect("short box", UNSEAL, DPE_NOT_SENT, dpe_unseal(&dpe, &live, true, NO_LABEL, data, made, &length));
    if (memory.written != 0 || live.state != DPE_LIVE) {
        printf("something was sent, or the handle changed\n");
        faults++;
    }
}

/* What is sent for one call, after a reply that stands in the memory, and what becomes of the handle. */
static void expect_sent(const char *digits, enum dpe_status wanted, enum dpe_status found, enum dpe_handle_state became,
                        const struct dpe_handle *handle)
{
    uint8_t frame[64];
    size_t length = put_digits(frame, digits);
    expect(digits, ROTATE, wanted, found);
    if (memory.written != length || memcmp(memory.sent, frame, length) != 0 || handle->state != became) {
        printf("%s: something else was sent, or the handle's state is %d\n", digits, (int)handle->state);
        faults++;
    }
}

static void start(struct dpe *dpe, const char *reply)
{
    uint8_t payload[64];
    put_frame(payload, put_digits(payload, reply));
    memory.read = memory.written = 0;
    dpe_open(dpe, (struct dpe_transport){&memory, keep_sent, give});
}

/* Commands on the default context have no handle, and what stands for it stays so but for a rotation that gives it one. */
static void try_defaults(void)
{
    static const char *const NEW_HANDLE = "8200558200a1015000000000000000040000000000000000";
    static struct dpe dpe;
    static uint8_t made[DPE_MOST_BOX];
    const struct dpe_bytes message = {(const uint8_t *)"hi", 2};
    struct dpe_handle root = {0}, by_default = {.state = DPE_DEFAULT};
    start(&dpe, NEW_HANDLE);
    expect_sent("0000000882004582" "07a102f5", DPE_OK, dpe_initialize(&dpe, true, &root), DPE_LIVE, &root);
    start(&dpe, NEW_HANDLE);
    expect_sent("0000000882004582" "0ea102f5", DPE_OK, dpe_rotate(&dpe, &by_default, true), DPE_DEFAULT, &by_default);
    start(&dpe, "82004482181ca0");
    expect_sent("0000000c82004982" "0aa204f505426869", DPE_NO_DEFAULT,
                dpe_sign(&dpe, &by_default, false, NO_LABEL, message, made), DPE_DEFAULT, &by_default);
    start(&dpe, "8200438216a0");
    expect_sent("0000000882004582" "0ca10540", DPE_OK, dpe_find_out(&dpe, &by_default), DPE_DEFAULT, &by_default);
    start(&dpe, "82004482181ca0");
    expect_sent("0000000882004582" "0ca10540", DPE_NO_DEFAULT, dpe_find_out(&dpe, &by_default), DPE_DEFAULT, &by_default);
    start(&dpe, "8200438200a0");
    expect_sent("0000000882004582" "0fa102f5", DPE_OK, dpe_destroy(&dpe, &by_default, true), DPE_DEFAULT, &by_default);
    start(&dpe, "00");
    expect_sent("0000000682004382" "0ea0", DPE_NO_REPLY, dpe_rotate(&dpe, &by_default, false), DPE_DEFAULT, &by_default);
    start(&dpe, NEW_HANDLE);
    expect_sent("0000000682004382" "0ea0", DPE_OK, dpe_rotate(&dpe, &by_default, false), DPE_LIVE, &by_default);
    if (memcmp(by_default.bytes, root.bytes, DPE_HANDLE_BYTES) != 0) {
        printf("the rotated context's handle isn't the one that came\n");
        faults++;
    }
}

int main(void)
{
    for (size_t i = 0; i < sizeof REPLIES / sizeof *REPLIES; i++)
        try_changes(&REPLIES[i]);
    try_refusals();
    try_arguments();
    try_defaults();
    printf("%u replies tried, %u faults\n", tries, faults);
    return faults == 0 ? 0 : 1;
}
