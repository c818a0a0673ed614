/* A boot of six layers over four localities with dpe.h, on the sockets of a new server; then replies that are lost. The
 * layers at the localities 0 and 2 are default contexts, and used without their handles.
 *
 *     boot ROM TEE LOADER KERNEL
 *
 * The four words are the paths of the sockets of the localities 0 to 3. It prints what came back, and ends with 1 at the
 * first answer that isn't the expected one. */
#define _POSIX_C_SOURCE 200809L
#include <errno.h>
#include <stdio.h>
#include <stdlib.h>
#include <string.h>
#include <sys/socket.h>
#include <sys/time.h>
#include <sys/un.h>
#include <unistd.h>

#include "dpe.h"

enum { PATIENCE_SECONDS = 20, LINKS = 4, NO_SOCKET = -1 };

/* One connection. The transport's context is its socket. */
struct link {
    const char *path;
    int socket;
    bool deaf; /* the next receiving fails, as where the reply was lost */
    struct dpe dpe;
};

static bool send_all(void *context, const uint8_t *bytes, size_t count)
{
    const struct link *link = context;
    while (count > 0) {
        ssize_t sent = send(link->socket, bytes, count, MSG_NOSIGNAL);
        if (sent < 0 && errno == EINTR)
            continue;
        if (sent <= 0)
            return false;
        bytes += sent;
        count -= (size_t)sent;
    }
    return true;
}

static bool receive_all(void *context, uint8_t *bytes, size_t count)
{
    const struct link *link = context;
    while (count > 0) {
        ssize_t received = recv(link->socket, bytes, count, 0);
        if (received < 0 && errno == EINTR)
            continue;
        if (received <= 0 || link->deaf)
            return false;
        bytes += received;
        count -= (size_t)received;
    }
    return true;
}

static void fail(const char *what, const char *why)
{
    fprintf(stderr, "boot: %s: %s\n", what, why);
    exit(1);
}

static void open_link(struct link *link)
{
    struct sockaddr_un address = {.sun_family = AF_UNIX};
    struct timeval patience = {.tv_sec = PATIENCE_SECONDS};
    if (strlen(link->path) >= sizeof address.sun_path)
        fail(link->path, "the path is too long");
    strcpy(address.sun_path, link->path);
    link->socket = socket(AF_UNIX, SOCK_STREAM, 0);
    if (link->socket < 0 || connect(link->socket, (const struct sockaddr *)&address, sizeof address) != 0 ||
        setsockopt(link->socket, SOL_SOCKET, SO_RCVTIMEO, &patience, sizeof patience) != 0)
        fail(link->path, strerror(errno));
    link->deaf = false;
    dpe_open(&link->dpe, (struct dpe_transport){link, send_all, receive_all});
}

static void close_link(struct link *link)
{
    if (link->socket != NO_SOCKET)
        close(link->socket);
    link->socket = NO_SOCKET;
}

/* Prints a step and its answer, which has to be the expected one. */
static void expect(enum dpe_status expected, const char *step, enum dpe_status status)
{
    printf("%-40s %s\n", step, dpe_status_name(status));
    if (status != expected)
        fail(step, dpe_status_name(expected));
}

static struct dpe_bytes text(const char *characters)
{
    return (struct dpe_bytes){(const uint8_t *)characters, strlen(characters)};
}

/* The inputs of the boot's layers: layer n has code 10 + n, configuration 20 + n and authority 30 + n, 64 times each. */
struct inputs {
    uint8_t code[DPE_INPUT_BYTES], configuration[DPE_INPUT_BYTES], authority[DPE_INPUT_BYTES];
};

static struct dpe_layer layer(struct inputs *inputs, unsigned number)
{
    memset(inputs->code, (int)(0x10 + number), DPE_INPUT_BYTES);
    memset(inputs->configuration, (int)(0x20 + number), DPE_INPUT_BYTES);
    memset(inputs->authority, (int)(0x30 + number), DPE_INPUT_BYTES);
    return (struct dpe_layer){
        .code = inputs->code, .configuration = inputs->configuration, .authority = inputs->authority, .mode = DPE_NORMAL};
}

static struct dpe_layer layer_at(struct inputs *inputs, unsigned number, uint8_t locality)
{
    struct dpe_layer made = layer(inputs, number);
    made.moves = true;
    made.target = locality;
    return made;
}

static void print_bytes(const char *name, const uint8_t *bytes, size_t count)
{
    printf("  %s ", name);
    for (size_t i = 0; i < count; i++)
        printf("%02x", bytes[i]);
    printf("\n");
}

static void sign(struct dpe *dpe, struct dpe_handle *tee)
{
    uint8_t signature[DPE_SIGNATURE_BYTES];
    expect(DPE_OK, "sign", dpe_sign(dpe, tee, true, text(""), text("hi"), signature));
    print_bytes("signature", signature, sizeof signature);
}

static void seal_and_unseal(struct dpe *dpe, struct dpe_handle *app)
{
    static uint8_t box[DPE_MOST_BOX], opened[DPE_MOST_DATA];
    struct dpe_policy policy = {.localities = 1u << 3, .modes = 1u << DPE_NORMAL};
    size_t length, count;
    expect(DPE_OK, "seal", dpe_seal(dpe, app, true, text(""), policy, text("secret"), box, &length));
    printf("  box of %zu bytes\n", length);
    expect(DPE_OK, "unseal", dpe_unseal(dpe, app, true, text(""), (struct dpe_bytes){box, length}, opened, &count));
    printf("  plaintext %.*s\n", (int)count, (const char *)opened);
    box[length - 1] ^= 1;
    expect(DPE_BOX_REFUSED, "unseal a changed box",
           dpe_unseal(dpe, app, true, text(""), (struct dpe_bytes){box, length}, opened, &count));
}

/* The reply to a rotation is lost: was the command executed? It was, so the context can't be named any more. */
static void lose_a_reply(struct link *kernel, struct dpe_handle *app)
{
    kernel->deaf = true;
    expect(DPE_LOST, "rotate, and the reply is lost", dpe_rotate(&kernel->dpe, app, false));
    expect(DPE_NOT_SENT, "rotate on a connection of no more use", dpe_rotate(&kernel->dpe, app, false));
    close_link(kernel);
    open_link(kernel);
    expect(DPE_NO_SUCH_HANDLE, "was it executed?", dpe_find_out(&kernel->dpe, app));
}

/* The reply to a signature by the default context is lost. Whether or not it was executed, the context is still there. */
static void lose_no_context(struct link *loader)
{
    struct dpe_handle by_default = {.state = DPE_DEFAULT};
    uint8_t signature[DPE_SIGNATURE_BYTES];
    loader->deaf = true;
    expect(DPE_LOST, "sign by default, and the reply is lost",
           dpe_sign(&loader->dpe, &by_default, true, text(""), text("hi"), signature));
    close_link(loader);
    open_link(loader);
    expect(DPE_OK, "is there a default context?", dpe_find_out(&loader->dpe, &by_default));
    expect(DPE_OK, "sign by default",
           dpe_sign(&loader->dpe, &by_default, true, text(""), text("hi"), signature));
}

static void boot(struct link links[LINKS])
{
    struct dpe *at[LINKS];
    struct inputs inputs;
    struct dpe_layer next;
    struct dpe_handle root = {0}, first = {0}, tee = {0}, loader = {0}, kernel = {0}, init = {0}, app = {0},
                      none = {0}, by_default = {.state = DPE_DEFAULT};
    static const uint8_t descriptor[] = {0xa0};

    for (unsigned i = 0; i < LINKS; i++)
        at[i] = &links[i].dpe;
    expect(DPE_OK, "profile", dpe_check_profile(at[0]));
    expect(DPE_ROOT_LOCALITY, "root at locality 1", dpe_initialize(at[1], true, &root));
    expect(DPE_OK, "root, as the default context", dpe_initialize(at[0], true, &root));
    next = layer(&inputs, 1);
    next.is_default = true;
    expect(DPE_OK, "first layer, in the root's place", dpe_derive(at[0], &by_default, false, &next, &first));
    expect(DPE_DEFAULT_TAKEN, "a layer beside it", dpe_derive(at[0], &by_default, true, &next, &none));
    next = layer_at(&inputs, 2, 1);
    expect(DPE_OK, "tee at 1, from the first layer", dpe_derive(at[0], &first, true, &next, &tee));
    expect(DPE_NO_DEFAULT, "is there a default context at 1?", dpe_find_out(at[1], &by_default));
    next = layer_at(&inputs, 3, 2);
    next.is_default = true;
    expect(DPE_OK, "loader at 2, from the first layer", dpe_derive(at[0], &by_default, false, &next, &loader));
    sign(at[1], &tee);
    next = layer_at(&inputs, 4, 3);
    next.configuration = NULL;
    next.descriptor = (struct dpe_bytes){descriptor, sizeof descriptor};
    expect(DPE_OK, "kernel at 3, from the loader", dpe_derive(at[2], &by_default, true, &next, &kernel));
    next = layer(&inputs, 5);
    expect(DPE_OK, "init, from the kernel", dpe_derive(at[3], &kernel, false, &next, &init));
    next = layer(&inputs, 6);
    next.derives_nothing = true;
    expect(DPE_OK, "application, from init", dpe_derive(at[3], &init, true, &next, &app));
    seal_and_unseal(at[3], &app);
    next = layer(&inputs, 7);
    expect(DPE_DERIVE_NOT_ALLOWED, "a layer from the application", dpe_derive(at[3], &app, true, &next, &none));
    expect(DPE_WRONG_LOCALITY, "rotate at another locality", dpe_rotate(at[2], &app, false));
    lose_a_reply(&links[3], &app);
    lose_no_context(&links[2]);
    expect(DPE_OK, "destroy tee", dpe_destroy(at[1], &tee, false));
    expect(DPE_OK, "is init live?", dpe_find_out(at[3], &init));
    expect(DPE_NO_SUCH_HANDLE, "is the loader's handle live?", dpe_find_out(at[2], &loader));
    expect(DPE_OK, "destroy the loader and all below", dpe_destroy(at[2], &by_default, true));
    expect(DPE_NO_SUCH_HANDLE, "is init live?", dpe_find_out(at[3], &init));
}

int main(int count, char **words)
{
    static struct link links[LINKS];
    if (count != 1 + LINKS) {
        fprintf(stderr, "usage: boot ROM TEE LOADER KERNEL\n");
        return 2;
    }
    for (int i = 0; i < LINKS; i++) {
        links[i] = (struct link){.path = words[i + 1], .socket = NO_SOCKET};
        open_link(&links[i]);
    }
    boot(links);
    for (int i = 0; i < LINKS; i++)
        close_link(&links[i]);
    return fflush(stdout) == 0 ? 0 : 1;
}
