/* An attempt whose peer speaks a second layer, cut anywhere: what the VM writes is the same as without a layer. Then what each version of the
   layer has of a suspension, bytes that are no frame of it, a message that it lacks, and calls that it doesn't allow. */
#include "palqytun.h"

#include <inttypes.h>
#include <stdio.h>
#include <string.h>

/* Frames in the VM's own bytes: a type in two bytes, a length in eight, and the body. */
static const uint8_t begun[] = {
    /* Start id="abc" debug_id="abc" known_entries=1 */
    0x00, 0x01, 0x00, 0x00, 0x00, 0x00, 0x00, 0x00, 0x00, 0x42, 0x00, 0x00, 0x00, 0x00, 0x00, 0x00, 0x00, 0x03, 0x61, 0x62,
    0x63, 0x00, 0x00, 0x00, 0x00, 0x00, 0x00, 0x00, 0x03, 0x61, 0x62, 0x63, 0x00, 0x00, 0x00, 0x00, 0x00, 0x00, 0x00, 0x00,
    0x00, 0x00, 0x00, 0x01, 0x00, 0x00, 0x00, 0x00, 0x00, 0x00, 0x00, 0x00, 0x00, 0x00, 0x00, 0x00, 0x00, 0x00, 0x00, 0x00,
    0x00, 0x00, 0x00, 0x00, 0x00, 0x00, 0x00, 0x00, 0x00, 0x00, 0x00, 0x00, 0x00, 0x00, 0x00, 0x00,
    /* Input value="Till" */
    0x00, 0x0a, 0x00, 0x00, 0x00, 0x00, 0x00, 0x00, 0x00, 0x14, 0x00, 0x00, 0x00, 0x00, 0x00, 0x00, 0x00, 0x00, 0x00, 0x00,
    0x00, 0x00, 0x00, 0x00, 0x00, 0x04, 0x54, 0x69, 0x6c, 0x6c,
};
static const uint8_t slept[] = {
    /* Notification id=completion(1) result=void */
    0x00, 0x1e, 0x00, 0x00, 0x00, 0x00, 0x00, 0x00, 0x00, 0x06, 0x00, 0x00, 0x00, 0x00, 0x01, 0x00,
};
static const uint8_t bad_type[] = {0xff, 0xff, 0x00, 0x00, 0x00, 0x00, 0x00, 0x00, 0x00, 0x00};
/* A frame of the layer, whose first byte is neither 0 nor 1. */
static const uint8_t bad_mark[] = {0x00, 0x00, 0x00, 0x01, 0x02, 0x00, 0x04};

/* Bytes, and how many there are. */
typedef struct {
    uint8_t bytes[1024];
    size_t len;
} buffer;

/* A session, the layer of its peer, and in pieces of how many bytes the peer sends. */
typedef struct {
    palqytun_vm *vm;
    uint32_t layer;
    size_t piece;
} session;

static const char v8[] = "application/vnd.restate.invocation.v8";
static const char v6[] = "application/vnd.restate.invocation.v6";

static bool is_over(const session *it)
{
    return it->layer != PALQYTUN_LAYER_OWN;
}

static palqytun_bytes bytes(const char *text)
{
    return (palqytun_bytes){(const uint8_t *)text, strlen(text)};
}

/* Says how a call ended that wasn't done. Exit status 1: no memory was found. */
static int failed(uint32_t status)
{
    fprintf(stderr, status == PALQYTUN_NO_MEMORY ? "no memory\n" : "status %" PRIu32 "\n", status);
    return status == PALQYTUN_NO_MEMORY ? 1 : 2;
}

/* Says what is wrong. */
static int wrong(const char *what)
{
    fprintf(stderr, "%s\n", what);
    return 2;
}

/* The exit status of a typed call: 0 if it was made. */
static int made(palqytun_replied replied)
{
    if (replied.kind == PALQYTUN_OUT_OF_MEMORY)
        return failed(PALQYTUN_NO_MEMORY);
    return replied.status == PALQYTUN_DONE ? 0 : failed(replied.status);
}

static void add(buffer *to, const uint8_t *from, size_t len)
{
    memcpy(to->bytes + to->len, from, len);
    to->len += len;
}

static size_t number(const uint8_t *at, size_t len)
{
    size_t found = 0;
    for (size_t i = 0; i < len; i++)
        found = found * 256 + at[i];
    return found;
}

/* Frames of the VM's own as those of the layer: a length in four bytes, a 0, the body, and the type in two bytes. */
static void over(const uint8_t *own, size_t len, buffer *to)
{
    for (size_t at = 0; at < len;) {
        size_t body = number(own + at + 2, 8);
        const uint8_t head[] = {(uint8_t)((body + 1) >> 24), (uint8_t)((body + 1) >> 16), (uint8_t)((body + 1) >> 8), (uint8_t)(body + 1), 0};
        add(to, head, sizeof head);
        add(to, own + at + 10, body);
        add(to, own + at, 2);
        at += 10 + body;
    }
}

/* The other way round. */
static void back(const buffer *from, buffer *to)
{
    for (size_t at = 0; at < from->len;) {
        size_t body = number(from->bytes + at, 4) - 1;
        const uint8_t head[] = {from->bytes[at + 5 + body], from->bytes[at + 6 + body], 0, 0, 0, 0, 0, 0, (uint8_t)(body >> 8), (uint8_t)body};
        add(to, head, sizeof head);
        add(to, from->bytes + at + 5, body);
        at += 7 + body;
    }
}

/* The peer sends bytes as they are. */
static int feed(const session *it, const uint8_t *sent, size_t len)
{
    for (size_t at = 0; at < len; at += it->piece) {
        size_t left = len - at;
        uint32_t status = palqytun_feed(it->vm, sent + at, left < it->piece ? left : it->piece);
        if (status != PALQYTUN_DONE)
            return failed(status);
    }
    return 0;
}

/* The peer sends these frames. */
static int send(const session *it, const uint8_t *own, size_t len)
{
    buffer sent = {.len = 0};
    if (!is_over(it))
        return feed(it, own, len);
    over(own, len, &sent);
    return feed(it, sent.bytes, sent.len);
}

/* Adds what the VM has written, in its own bytes. */
static int receive(const session *it, buffer *received)
{
    buffer sent = {.len = 0};
    palqytun_told told = palqytun_take_output(it->vm, sent.bytes, 0);
    if (told.status != PALQYTUN_NO_ROOM)
        return told.status == PALQYTUN_DONE ? wrong("there is room for bytes in none") : failed(told.status);
    sent.len = told.len;
    told = palqytun_take_output(it->vm, sent.bytes, sizeof sent.bytes);
    if (told.status != PALQYTUN_DONE)
        return failed(told.status);
    if (told.len != sent.len)
        return wrong("the length of the output changed");
    if (is_over(it))
        back(&sent, received);
    else
        add(received, sent.bytes, sent.len);
    return 0;
}

/* Makes a VM in the session. */
static int make(const session *it, const char *version)
{
    return made(palqytun_make(it->vm, (palqytun_optional){true, bytes(version)}, NULL));
}

/* Opens a session with a VM. */
static int begin(session *it, const char *version)
{
    uint32_t status = palqytun_open_over(&it->vm, it->layer);
    return status == PALQYTUN_DONE ? make(it, version) : failed(status);
}

/* The handler reads its input, sleeps and waits. */
static int sleeps(const session *it)
{
    int ended = send(it, begun, sizeof begun);
    if (ended == 0)
        ended = made(palqytun_input(it->vm));
    if (ended == 0)
        ended = made(palqytun_sleep(it->vm, bytes(""), 1000));
    return ended == 0 ? made(palqytun_await(it->vm, 17)) : ended;
}

/* The sleep is over: the handler writes its output and ends. */
static int ends(const session *it)
{
    const palqytun_value value = {false, 0, bytes("x"), NULL, 0};
    int ended = send(it, slept, sizeof slept);
    if (ended == 0)
        ended = made(palqytun_await(it->vm, 17));
    if (ended == 0)
        ended = made(palqytun_take(it->vm, 17));
    if (ended == 0)
        ended = made(palqytun_write_output(it->vm, &value, false));
    return ended == 0 ? made(palqytun_end(it->vm)) : ended;
}

/* A whole attempt, and what its peer received. */
static int attempt(uint32_t layer, size_t piece, buffer *received)
{
    session it = {NULL, layer, piece};
    int ended = begin(&it, v8);
    if (ended == 0)
        ended = sleeps(&it);
    if (ended == 0)
        ended = receive(&it, received);
    if (ended == 0)
        ended = ends(&it);
    if (ended == 0)
        ended = receive(&it, received);
    palqytun_close(it.vm);
    return ended;
}

static bool same(const buffer *one, const buffer *other)
{
    return one->len == other->len && memcmp(one->bytes, other->bytes, one->len) == 0;
}

/* The same attempt without a layer, and over it, in pieces of each length. */
static int attempts(void)
{
    buffer plain = {.len = 0};
    int ended = attempt(PALQYTUN_LAYER_OWN, sizeof begun, &plain);
    for (size_t piece = 1; ended == 0 && piece <= sizeof begun; piece++) {
        buffer other = {.len = 0};
        ended = attempt(PALQYTUN_LAYER_SHORT, piece, &other);
        if (ended == 0 && !same(&plain, &other))
            ended = wrong("the output isn't that of an attempt without a layer");
    }
    if (ended == 0)
        printf("an attempt in pieces of 1 to %zu bytes: %zu bytes of output, as without a layer\n", sizeof begun, plain.len);
    return ended;
}

/* The last frame in the VM's own bytes, as a line. */
static int print_last(const char *what, const buffer *frames)
{
    size_t last = 0;
    for (size_t at = 0; at < frames->len; at += 10 + number(frames->bytes + at + 2, 8))
        last = at;
    uint8_t line[256];
    palqytun_told told = palqytun_frame_line(frames->bytes + last, frames->len - last, line, sizeof line);
    if (told.status != PALQYTUN_DONE)
        return failed(told.status);
    printf("%s: %.*s\n", what, (int)told.len, (const char *)line);
    return 0;
}

/* The attempt suspends, and the peer reads why. */
static int suspends(const char *what, uint32_t layer, const char *version)
{
    session it = {NULL, layer, 5};
    buffer received = {.len = 0};
    int ended = begin(&it, version);
    if (ended == 0)
        ended = send(&it, begun, sizeof begun);
    if (ended == 0)
        ended = made(palqytun_input(it.vm));
    if (ended == 0)
        ended = made(palqytun_sleep(it.vm, bytes(""), 1000));
    if (ended == 0)
        ended = made(palqytun_close_input(it.vm));
    palqytun_replied awaited = palqytun_await(it.vm, 17);
    if (ended == 0 && awaited.kind != PALQYTUN_SUSPENDED)
        ended = made(awaited);
    if (ended == 0)
        ended = receive(&it, &received);
    palqytun_close(it.vm);
    return ended == 0 ? print_last(what, &received) : ended;
}

static int suspensions(void)
{
    int ended = suspends("own, V8", PALQYTUN_LAYER_OWN, v8);
    if (ended == 0)
        ended = suspends("short, V8", PALQYTUN_LAYER_SHORT, v8);
    if (ended == 0)
        ended = suspends("short of V6, V8", PALQYTUN_LAYER_SHORT_V6, v8);
    if (ended == 0)
        ended = suspends("own, V6", PALQYTUN_LAYER_OWN, v6);
    return ended == 0 ? suspends("short, V6", PALQYTUN_LAYER_SHORT, v6) : ended;
}

/* The VM is fed bytes that are no frame, and its error is received. */
static int spoiled(uint32_t layer, buffer *received)
{
    session it = {NULL, layer, 1};
    int ended = begin(&it, v8);
    if (ended == 0)
        ended = send(&it, begun, sizeof begun);
    if (ended == 0)
        ended = is_over(&it) ? feed(&it, bad_mark, sizeof bad_mark) : feed(&it, bad_type, sizeof bad_type);
    palqytun_replied replied = palqytun_input(it.vm);
    if (ended == 0 && replied.status != PALQYTUN_REFUSED)
        ended = failed(replied.status);
    if (ended == 0)
        printf("no frame: %" PRIu32 " %" PRIu64 "\n", replied.kind, replied.number);
    if (ended == 0)
        ended = receive(&it, received);
    /* What comes later is dropped. */
    if (ended == 0)
        ended = send(&it, slept, sizeof slept);
    palqytun_close(it.vm);
    return ended;
}

static int faults(void)
{
    buffer plain = {.len = 0}, other = {.len = 0};
    int ended = spoiled(PALQYTUN_LAYER_OWN, &plain);
    if (ended == 0)
        ended = spoiled(PALQYTUN_LAYER_SHORT, &other);
    if (ended == 0 && !same(&plain, &other))
        ended = wrong("the error isn't that of a VM without a layer");
    return ended;
}

/* The peer's version has no report of what is awaited: what stood before it is handed out. A new VM in the session writes as if it were the
   first. */
static int lacks(void)
{
    session it = {NULL, PALQYTUN_LAYER_SHORT_V6, 5};
    buffer received = {.len = 0};
    int ended = begin(&it, v8);
    if (ended == 0)
        ended = sleeps(&it);
    if (ended == 0)
        ended = receive(&it, &received);
    for (int i = 0; ended == 0 && i < 2; i++) {
        palqytun_told told = palqytun_take_output(it.vm, received.bytes, sizeof received.bytes);
        if (told.status == PALQYTUN_NO_MEMORY)
            ended = failed(told.status);
        else
            printf("a message that the layer lacks: %" PRIu32 ", %zu bytes, behind a frame of %zu\n", told.status, told.len, received.len);
    }
    buffer again = {.len = 0};
    if (ended == 0)
        ended = make(&it, v6);
    if (ended == 0)
        ended = sleeps(&it);
    if (ended == 0)
        ended = receive(&it, &again);
    if (ended == 0 && !same(&received, &again))
        ended = wrong("a new VM writes something else");
    palqytun_close(it.vm);
    return ended;
}

/* A part of a frame is dropped if a VM is made, and what a layer doesn't allow changes nothing. */
static int refusals(void)
{
    session it = {NULL, PALQYTUN_LAYER_SHORT, sizeof begun};
    palqytun_vm *none = (palqytun_vm *)(uintptr_t)1;
    uint32_t statuses[] = {palqytun_open_over(&none, 3), palqytun_open_over(NULL, PALQYTUN_LAYER_SHORT), palqytun_open_over(NULL, 3)};
    if (none != NULL)
        return wrong("a number without a layer gives a handle");
    int ended = begin(&it, v8);
    if (ended == 0)
        ended = feed(&it, bad_mark, 3);
    if (ended == 0)
        ended = make(&it, v8);
    if (ended == 0)
        ended = send(&it, begun, sizeof begun);
    static const uint8_t line[] = "input 00";
    palqytun_told told = palqytun_line(it.vm, line, sizeof line - 1), answered = palqytun_answer(it.vm, NULL, 0);
    if (ended == 0)
        printf("refused: %" PRIu32 " %" PRIu32 " %" PRIu32 ", a line: %" PRIu32 " %zu %" PRIu32 " %zu\n", statuses[0], statuses[1], statuses[2],
               told.status, told.len, answered.status, answered.len);
    if (ended == 0)
        ended = made(palqytun_input(it.vm));
    palqytun_close(it.vm);
    return ended;
}

/* What the VM writes, by a loan if its peer speaks its own layer. Another peer is lent nothing: the bytes wait, and are handed out in the layer. */
static int loan(uint32_t layer, buffer *received)
{
    session it = {NULL, layer, sizeof begun};
    palqytun_bytes lent = bytes("not lent");
    int ended = begin(&it, v8);
    if (ended == 0)
        ended = sleeps(&it);
    uint32_t status = palqytun_lend_output(it.vm, &lent);
    if (ended == 0)
        printf("a loan: %" PRIu32 ", %zu bytes%s\n", status, lent.len, lent.at == NULL ? " at NULL" : "");
    if (ended == 0 && is_over(&it))
        ended = receive(&it, received);
    else if (ended == 0)
        add(received, lent.at, lent.len);
    palqytun_close(it.vm);
    return ended;
}

/* The same by a reply. */
static int reply(uint32_t layer, buffer *received)
{
    session it = {NULL, layer, sizeof begun};
    int ended = begin(&it, v8);
    if (ended == 0)
        ended = sleeps(&it);
    palqytun_replied replied = palqytun_output(it.vm);
    if (ended == 0 && replied.status != PALQYTUN_LAYERED)
        ended = made(replied);
    if (ended == 0)
        printf("a reply: %" PRIu32 ", %zu bytes\n", replied.status, replied.len);
    if (ended == 0 && is_over(&it))
        ended = receive(&it, received);
    else if (ended == 0)
        received->len = palqytun_part(it.vm, 0, received->bytes, sizeof received->bytes).len;
    palqytun_close(it.vm);
    return ended;
}

static int replies(void)
{
    buffer plain = {.len = 0}, other = {.len = 0};
    int ended = reply(PALQYTUN_LAYER_OWN, &plain);
    if (ended == 0)
        ended = reply(PALQYTUN_LAYER_SHORT, &other);
    if (ended == 0 && !same(&plain, &other))
        ended = wrong("what a reply left isn't what one has without a layer");
    return ended;
}

static int loans(void)
{
    buffer plain = {.len = 0}, other = {.len = 0};
    int ended = loan(PALQYTUN_LAYER_OWN, &plain);
    if (ended == 0)
        ended = loan(PALQYTUN_LAYER_SHORT, &other);
    if (ended == 0 && !same(&plain, &other))
        ended = wrong("what a loan left isn't what one lends without a layer");
    return ended;
}

int main(void)
{
    int ended = attempts();
    if (ended == 0)
        ended = suspensions();
    if (ended == 0)
        ended = faults();
    if (ended == 0)
        ended = lacks();
    if (ended == 0)
        ended = loans();
    if (ended == 0)
        ended = replies();
    return ended == 0 ? refusals() : ended;
}
