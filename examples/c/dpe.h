/* A client of a DICE Protection Environment of the profile dpe-symmetric-2 (docs/PROTOCOL.md), for firmware: C11, no
 * allocation, no global state, and no header but three that a freestanding compiler has.
 *
 * One struct dpe is one connection, and so one locality. Each call sends a command and waits for its reply. A reply is taken
 * only where it is, byte for byte, the encoding of what the command can be answered with; whatever else comes ends the use
 * of the connection. */
#ifndef DPE_H
#define DPE_H

#include <stdbool.h>
#include <stddef.h>
#include <stdint.h>

enum {
    DPE_HANDLE_BYTES = 16,
    DPE_INPUT_BYTES = 64,
    DPE_SIGNATURE_BYTES = 64,
    DPE_MOST_LABEL = 64,
    DPE_MOST_DATA = 2048, /* of a message to sign, and of a plaintext */
    DPE_MOST_DESCRIPTOR = 1024,
    DPE_BOX_OVERHEAD = 85, /* what a box has more than its plaintext */
    DPE_MOST_BOX = DPE_BOX_OVERHEAD + DPE_MOST_DATA,
    DPE_LOCALITIES = 8,
    DPE_ALL_LOCALITIES = 255,
    DPE_ALL_MODES = 15,
    DPE_ROOM = 2240 /* for the longest frame that is sent or taken, 2,236 bytes */
};

enum dpe_status {
    DPE_OK = 0,
    /* The server's refusals. Nothing changed, and the handle is as good as before. */
    DPE_INVALID_COMMAND = 2,
    DPE_INVALID_ARGUMENT = 3,
    DPE_SEED_LOCKED = 5,
    DPE_UNSUPPORTED = 16,
    DPE_NO_SUCH_HANDLE = 17,
    DPE_WRONG_LOCALITY = 18,
    DPE_DERIVE_NOT_ALLOWED = 19,
    DPE_TOO_DEEP = 20,
    DPE_CONTEXTS_FULL = 21,
    DPE_BOX_MALFORMED = 22,
    DPE_BOX_REFUSED = 23,
    DPE_POLICY_REFUSED = 24,
    DPE_SERIALS_SPENT = 25,
    DPE_JOURNAL_FULL = 26, /* the server has ended the connection */
    DPE_ROOT_LOCALITY = 27,
    DPE_NO_DEFAULT = 28,
    DPE_DEFAULT_TAKEN = 29,
    /* Of this library. */
    DPE_NOT_SENT = -1,  /* an argument is out of its range, or the connection was of no more use; nothing was sent */
    DPE_LOST = -2,      /* sending or receiving failed: the command may have been executed (dpe_find_out) */
    DPE_NO_REPLY = -3   /* what came is no reply to the command, which may have been executed */
};

enum dpe_mode { DPE_NOT_CONFIGURED = 0, DPE_NORMAL = 1, DPE_DEBUG = 2, DPE_RECOVERY = 3 };

/* How bytes are sent and received: each call moves exactly so many bytes, or gives false, also where it waited too long. */
struct dpe_transport {
    void *context;
    bool (*send)(void *context, const uint8_t *bytes, size_t count);
    bool (*receive)(void *context, uint8_t *bytes, size_t count);
};

struct dpe {
    struct dpe_transport transport;
    bool usable; /* false once the connection has to be closed */
    uint8_t room[DPE_ROOM];
};

struct dpe_bytes {
    const uint8_t *bytes;
    size_t length;
};

/* A handle, which every accepted command spends: the calls put the new one in its place. A handle of zeros is none.
 * One of the state DPE_DEFAULT names nothing: it stands for the default context of the connection's locality, whichever that
 * is, and stays so, but that dpe_rotate may give the context a handle in its place. */
enum dpe_handle_state {
    DPE_NONE = 0, /* spent, or never given */
    DPE_LIVE,
    DPE_UNSURE, /* a reply was lost */
    DPE_DEFAULT
};
struct dpe_handle {
    uint8_t bytes[DPE_HANDLE_BYTES];
    enum dpe_handle_state state;
};

/* What a layer is derived from. */
struct dpe_layer {
    const uint8_t *code;          /* 64 bytes */
    const uint8_t *configuration; /* 64 bytes, or NULL where the descriptor is in its place */
    struct dpe_bytes descriptor;  /* at most 1,024 bytes */
    const uint8_t *authority;     /* 64 bytes */
    enum dpe_mode mode;
    const uint8_t *hidden; /* 64 bytes, or NULL for 64 zeros */
    bool derives_nothing;  /* the new context may not be derived from */
    bool moves;            /* the new context is at the locality `target`, and not at the caller's */
    uint8_t target;
    bool is_default; /* the new context is the default one of its locality */
};

/* Who may open a box: bit i, counted from the lowest, admits locality i, or mode i. Give it the opener's own bits: a box
 * whose masks lack them can be sealed and is lost. */
struct dpe_policy {
    uint8_t localities;
    uint8_t modes;
};

/* A new connection. The transport's context is the caller's, which opens and closes what is behind it. */
void dpe_open(struct dpe *dpe, struct dpe_transport transport);

/* DPE_OK where the server has the profile dpe-symmetric-2, and DPE_NO_REPLY where it has another. */
enum dpe_status dpe_check_profile(struct dpe *dpe);

/* The root, once in the life of a server, at locality 0, whose default context it may be. Here and below a new context's
 * handle is written where the status is DPE_OK, and else stays as it was. */
enum dpe_status dpe_initialize(struct dpe *dpe, bool is_default, struct dpe_handle *root);

/* A child of `parent`, which stays under a new handle where it is retained, and else is gone. `child` is another object than
 * `parent`. */
enum dpe_status dpe_derive(struct dpe *dpe, struct dpe_handle *parent, bool retain, const struct dpe_layer *layer,
                           struct dpe_handle *child);

/* In these three the context stays under a new handle where it is retained, and else is gone once the command is accepted.
 * `box` and `plaintext` have room for DPE_MOST_BOX and DPE_MOST_DATA bytes; `*length` tells how many came. */
enum dpe_status dpe_sign(struct dpe *dpe, struct dpe_handle *handle, bool retain, struct dpe_bytes label,
                         struct dpe_bytes message, uint8_t signature[DPE_SIGNATURE_BYTES]);
enum dpe_status dpe_seal(struct dpe *dpe, struct dpe_handle *handle, bool retain, struct dpe_bytes label,
                         struct dpe_policy policy, struct dpe_bytes plaintext, uint8_t box[DPE_MOST_BOX], size_t *length);
enum dpe_status dpe_unseal(struct dpe *dpe, struct dpe_handle *handle, bool retain, struct dpe_bytes label,
                           struct dpe_bytes box, uint8_t plaintext[DPE_MOST_DATA], size_t *length);

/* The context gets a new handle, and is the default one of its locality from then on, or is none from then on. A handle of the
 * state DPE_DEFAULT is live afterwards where the context is no default one. */
enum dpe_status dpe_rotate(struct dpe *dpe, struct dpe_handle *handle, bool to_be_default);

/* Ends the context, and recursively all that was derived from it. */
enum dpe_status dpe_destroy(struct dpe *dpe, struct dpe_handle *handle, bool recursively);

/* What became of a command whose reply was lost, asked on a new connection to the same socket: DPE_OK where it wasn't
 * executed, and the handle is live; DPE_NO_SUCH_HANDLE where it was, and the handle is spent. Of a handle of the state
 * DPE_DEFAULT it says whether there is a default context, DPE_OK or DPE_NO_DEFAULT. It changes nothing at the server, but
 * takes a place of its history. */
enum dpe_status dpe_find_out(struct dpe *dpe, struct dpe_handle *handle);

/* A word or two for a log. */
const char *dpe_status_name(enum dpe_status status);

#endif
