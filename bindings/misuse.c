/* A test: what a caller may not do is answered by a status, and nothing is corrupted. Then each two calls race, on two to eight threads, and each call
   races the close of its handle.
   usage: misuse ROUNDS [few] [stack]: this many rounds of each race; of 16 calls alone; and on a thread with as little stack as the header says.
   It is run under valgrind and with sanitizers too, and these need more stack. */
#define _POSIX_C_SOURCE 200809L
#include "palqytun.h"

#include <inttypes.h>
#include <limits.h>
#include <pthread.h>
#include <stdatomic.h>
#include <stdio.h>
#include <stdlib.h>
#include <string.h>

/* ---- statuses */

static int wrong, uses;

/* A misuse, and the status that it has to get. */
static void gets(const char *what, uint32_t status, uint32_t wanted)
{
    uses++;
    if (status == wanted)
        return;
    printf("%s: status %" PRIu32 ", and not %" PRIu32 "\n", what, status, wanted);
    wrong++;
}

static palqytun_bytes bytes(const char *text)
{
    return (palqytun_bytes){(const uint8_t *)text, strlen(text)};
}

static const palqytun_bytes nothing = {NULL, 0}, endless = {(const uint8_t *)"x", SIZE_MAX}, null_of_1 = {NULL, 1}, bad_text = {(const uint8_t *)"\xff", 1};

static const uint8_t begun[] = {
    /* Start id="a" debug_id="a" known_entries=1 */
    0x00, 0x01, 0x00, 0x00, 0x00, 0x00, 0x00, 0x00, 0x00, 0x3e, 0x00, 0x00, 0x00, 0x00, 0x00, 0x00, 0x00, 0x01, 0x61, 0x00, 0x00, 0x00,
    0x00, 0x00, 0x00, 0x00, 0x01, 0x61, 0x00, 0x00, 0x00, 0x00, 0x00, 0x00, 0x00, 0x00, 0x00, 0x00, 0x00, 0x01, 0x00, 0x00, 0x00, 0x00,
    0x00, 0x00, 0x00, 0x00, 0x00, 0x00, 0x00, 0x00, 0x00, 0x00, 0x00, 0x00, 0x00, 0x00, 0x00, 0x00, 0x00, 0x00, 0x00, 0x00, 0x00, 0x00,
    0x00, 0x00, 0x00, 0x00, 0x00, 0x00,
    /* Input value="" */
    0x00, 0x0a, 0x00, 0x00, 0x00, 0x00, 0x00, 0x00, 0x00, 0x10, 0x00, 0x00, 0x00, 0x00, 0x00, 0x00, 0x00, 0x00, 0x00, 0x00, 0x00, 0x00,
    0x00, 0x00, 0x00, 0x00,
};
static const uint8_t input[] = {
    0x00, 0x0a, 0x00, 0x00, 0x00, 0x00, 0x00, 0x00, 0x00, 0x10, 0x00, 0x00, 0x00, 0x00, 0x00, 0x00, 0x00, 0x00, 0x00, 0x00, 0x00, 0x00,
    0x00, 0x00, 0x00, 0x00,
};

/* A session with a VM that has its input. */
static palqytun_vm *opened(void)
{
    palqytun_vm *vm;
    palqytun_optional v7 = {true, bytes("application/vnd.restate.invocation.v7")};
    if (palqytun_open(&vm) != PALQYTUN_DONE || palqytun_make(vm, v7, NULL).status != PALQYTUN_DONE
        || palqytun_feed(vm, begun, sizeof begun) != PALQYTUN_DONE || palqytun_input(vm).status != PALQYTUN_DONE) {
        printf("no VM\n");
        exit(2);
    }
    return vm;
}

static palqytun_journal *opened_journal(void)
{
    palqytun_journal *journal;
    if (palqytun_journal_open(&journal) != PALQYTUN_DONE || palqytun_journal_entry(journal, input, sizeof input).status != PALQYTUN_DONE) {
        printf("no journal\n");
        exit(2);
    }
    return journal;
}

/* ---- handles */

static void handles(void)
{
    uint8_t out[8] = {0};
    palqytun_bytes lent = null_of_1;
    palqytun_vm *vm = opened(), *closed = opened();
    palqytun_journal *journal = opened_journal(), *ended = opened_journal();
    gets("close", palqytun_close(closed), PALQYTUN_DONE);
    gets("journal_close", palqytun_journal_close(ended), PALQYTUN_DONE);
    gets("open to NULL", palqytun_open(NULL), PALQYTUN_BAD_POINTER);
    gets("journal_open to NULL", palqytun_journal_open(NULL), PALQYTUN_BAD_POINTER);

    struct {
        const char *what;
        palqytun_vm *vm;
        uint32_t status;
    } bad[] = {
        {"NULL", NULL, PALQYTUN_NO_SESSION},
        {"a closed one", closed, PALQYTUN_NO_SESSION},
        {"a journal's", (palqytun_vm *)journal, PALQYTUN_BAD_HANDLE},
        {"a closed journal's", (palqytun_vm *)ended, PALQYTUN_NO_SESSION},
        {"a local variable's address", (palqytun_vm *)(void *)&out, PALQYTUN_BAD_HANDLE},
        {"the address of the handle", (palqytun_vm *)(void *)&vm, PALQYTUN_BAD_HANDLE},
        {"a number", (palqytun_vm *)(uintptr_t)0xdeadbeef, PALQYTUN_BAD_HANDLE},
        {"the largest number", (palqytun_vm *)UINTPTR_MAX, PALQYTUN_BAD_HANDLE},
        {"a later handle of the slot", (palqytun_vm *)((uintptr_t)vm + ((uintptr_t)7 << 32)), PALQYTUN_BAD_HANDLE},
    };
    for (size_t i = 0; i < sizeof bad / sizeof *bad; i++) {
        palqytun_vm *it = bad[i].vm;
        uint32_t wanted = bad[i].status;
        gets(bad[i].what, palqytun_state(it).status, wanted);
        gets(bad[i].what, palqytun_line(it, (const uint8_t *)"state", 5).status, wanted);
        gets(bad[i].what, palqytun_answer(it, out, sizeof out).status, wanted);
        gets(bad[i].what, palqytun_feed(it, begun, sizeof begun), wanted);
        gets(bad[i].what, palqytun_take_output(it, out, sizeof out).status, wanted);
        gets(bad[i].what, palqytun_lend_output(it, &lent), wanted);
        gets(bad[i].what, palqytun_part(it, 0, out, sizeof out).status, wanted);
        gets(bad[i].what, palqytun_next_retry(it).status, wanted);
        gets(bad[i].what, palqytun_describe(it, out, sizeof out).status, wanted);
        gets(bad[i].what, palqytun_sleep(it, bytes("n"), 1).status, wanted);
        gets(bad[i].what, palqytun_make(it, (palqytun_optional){0}, NULL).status, wanted);
        gets(bad[i].what, palqytun_close(it), wanted);
    }
    gets("nothing is lent", lent.at == NULL && lent.len == 0, true);
    palqytun_journal *foreign[] = {NULL, ended, (palqytun_journal *)vm, (palqytun_journal *)(void *)&out, (palqytun_journal *)UINTPTR_MAX};
    uint32_t statuses[] = {PALQYTUN_NO_JOURNAL, PALQYTUN_NO_JOURNAL, PALQYTUN_BAD_HANDLE, PALQYTUN_BAD_HANDLE, PALQYTUN_BAD_HANDLE};
    for (size_t i = 0; i < 5; i++) {
        gets("a bad journal", palqytun_journal_entries(foreign[i]).status, statuses[i]);
        gets("a bad journal", palqytun_journal_arrive(foreign[i], input, sizeof input).status, statuses[i]);
        gets("a bad journal", palqytun_journal_store(foreign[i], 7, NULL, 0).status, statuses[i]);
        gets("a bad journal", palqytun_journal_row(foreign[i], 0).status, statuses[i]);
        gets("a bad journal", palqytun_journal_keep(foreign[i]), statuses[i]);
        gets("a bad journal", palqytun_journal_close(foreign[i]), statuses[i]);
    }
    /* The slot of what was closed is used again, by another handle. */
    palqytun_vm *next = opened();
    gets("a closed one whose slot is used again", palqytun_state(closed).status, PALQYTUN_NO_SESSION);
    gets("a closed one whose slot is used again", palqytun_close(closed), PALQYTUN_NO_SESSION);
    gets("the one that uses it", palqytun_state(next).status, PALQYTUN_DONE);
    gets("close", palqytun_close(next), PALQYTUN_DONE);
    gets("close", palqytun_close(vm), PALQYTUN_DONE);
    gets("close again", palqytun_close(vm), PALQYTUN_NO_SESSION);
    gets("close", palqytun_journal_close(journal), PALQYTUN_DONE);
}

/* ---- pointers and lengths */

static void pointers(void)
{
    palqytun_vm *vm = opened();
    palqytun_pair null_pairs[] = {{nothing, nothing}, {bytes("k"), nothing}}, bad_pairs[] = {{bytes("k"), null_of_1}};
    palqytun_value value = {0}, failure = {.is_failure = true, .code = 409, .metadata = null_pairs, .metadata_len = 2};
    palqytun_target target = {.service = bytes("S"), .handler = bytes("h"), .headers = null_pairs, .headers_len = 2};
    palqytun_invocation invocation = {.name = bytes("inv_1")};
    gets("a line that is NULL", palqytun_line(vm, NULL, 0).status, PALQYTUN_DONE);
    gets("a feed that is NULL", palqytun_feed(vm, NULL, 0), PALQYTUN_DONE);
    gets("an empty answer to NULL", palqytun_answer(vm, NULL, 0).status, PALQYTUN_DONE);
    gets("no output to NULL", palqytun_take_output(vm, NULL, 0).status, PALQYTUN_DONE);
    gets("a name that is NULL", palqytun_sleep(vm, nothing, 1).status, PALQYTUN_DONE);
    gets("a value that is zeroes", palqytun_state_set(vm, bytes("k"), nothing, nothing, false).status, PALQYTUN_DONE);
    gets("a target of NULLs", palqytun_call(vm, &target, nothing, nothing, false).status, PALQYTUN_DONE);
    gets("a result that is zeroes", palqytun_complete_awakeable(vm, bytes("id"), &value, false).status, PALQYTUN_DONE);
    gets("metadata of NULLs", palqytun_complete_awakeable(vm, bytes("id"), &failure, false).status, PALQYTUN_DONE);
    gets("an invocation of NULLs", palqytun_attach(vm, &invocation).status, PALQYTUN_DONE);
    gets("nodes that are NULL", palqytun_await_tree(vm, NULL, 0).status, PALQYTUN_BAD_TREE);
    gets("a frame that is NULL", palqytun_frame_read(NULL, 0).status, PALQYTUN_NOT_A_FRAME);
    gets("frames that are NULL", palqytun_is_awake(NULL, 0, NULL, 0).status, PALQYTUN_NOT_A_FRAME);

    gets("NULL of a length", palqytun_line(vm, NULL, 1).status, PALQYTUN_BAD_POINTER);
    gets("NULL of a length", palqytun_feed(vm, NULL, 1), PALQYTUN_BAD_POINTER);
    gets("room at NULL", palqytun_answer(vm, NULL, 1).status, PALQYTUN_BAD_POINTER);
    gets("room at NULL", palqytun_take_output(vm, NULL, 1).status, PALQYTUN_BAD_POINTER);
    gets("room at NULL", palqytun_part(vm, 0, NULL, 1).status, PALQYTUN_BAD_POINTER);
    gets("nowhere to lend to", palqytun_lend_output(vm, NULL), PALQYTUN_BAD_POINTER);
    gets("a name at NULL", palqytun_sleep(vm, null_of_1, 1).status, PALQYTUN_BAD_POINTER);
    gets("an optional at NULL", palqytun_make(vm, (palqytun_optional){true, null_of_1}, NULL).status, PALQYTUN_BAD_POINTER);
    gets("nodes at NULL", palqytun_await_tree(vm, NULL, 1).status, PALQYTUN_BAD_POINTER);
    gets("no target", palqytun_call(vm, NULL, nothing, nothing, false).status, PALQYTUN_BAD_POINTER);
    gets("no value", palqytun_complete_awakeable(vm, bytes("id"), NULL, false).status, PALQYTUN_BAD_POINTER);
    gets("no value", palqytun_write_output(vm, NULL, false).status, PALQYTUN_BAD_POINTER);
    gets("no invocation", palqytun_attach(vm, NULL).status, PALQYTUN_BAD_POINTER);
    gets("no error", palqytun_propose_retryable(vm, 17, 1, NULL, NULL).status, PALQYTUN_BAD_POINTER);
    target.headers = bad_pairs, target.headers_len = 1;
    gets("a header at NULL", palqytun_call(vm, &target, nothing, nothing, false).status, PALQYTUN_BAD_POINTER);
    target.headers = NULL;
    gets("headers at NULL", palqytun_call(vm, &target, nothing, nothing, false).status, PALQYTUN_BAD_POINTER);
    target.headers_len = SIZE_MAX / sizeof *bad_pairs + 2, target.headers = bad_pairs;
    gets("endless headers", palqytun_call(vm, &target, nothing, nothing, false).status, PALQYTUN_BAD_POINTER);
    gets("an endless line", palqytun_line(vm, (const uint8_t *)"x", SIZE_MAX).status, PALQYTUN_BAD_POINTER);
    gets("an endless feed", palqytun_feed(vm, begun, SIZE_MAX / 2 + 1), PALQYTUN_BAD_POINTER);
    gets("an endless name", palqytun_sleep(vm, endless, 1).status, PALQYTUN_BAD_POINTER);
    gets("an endless value", palqytun_state_set(vm, bytes("k"), endless, nothing, false).status, PALQYTUN_BAD_POINTER);
    gets("endless nodes", palqytun_await_tree(vm, &(palqytun_node){0}, SIZE_MAX / 4).status, PALQYTUN_BAD_POINTER);
    gets("an endless frame", palqytun_frame_read(begun, SIZE_MAX).status, PALQYTUN_BAD_POINTER);
    gets("a journal at NULL", palqytun_mismatch(NULL, 1, 0, 0).status, PALQYTUN_BAD_POINTER);
    gets("an endless journal", palqytun_mismatch(begun, SIZE_MAX, 0, 0).status, PALQYTUN_BAD_POINTER);
    gets("a call at NULL", palqytun_mismatch_part(begun, sizeof begun, 0, 10, NULL, 1, false, 0, NULL, 0).status, PALQYTUN_BAD_POINTER);
    gets("room at NULL", palqytun_mismatch_part(begun, sizeof begun, 0, 10, NULL, 0, false, 0, NULL, 1).status, PALQYTUN_BAD_POINTER);
    gets("it goes on", palqytun_state(vm).status, PALQYTUN_DONE);
    palqytun_close(vm);
}

/* ---- numbers, texts and trees */

static void values(void)
{
    palqytun_vm *vm = opened();
    palqytun_optional v7 = {true, bytes("application/vnd.restate.invocation.v7")};
    palqytun_options options[] = {{.cancellation = 5}, {.checks = 2}, {.awaiting = 3}, {.mismatch = 3}, {.replay = 2}, {.delivery = 2}, {.seed = 1, .replay = UINT32_MAX}};
    for (size_t i = 0; i < sizeof options / sizeof *options; i++)
        gets("an option that there isn't", palqytun_make(vm, v7, &options[i]).status, PALQYTUN_BAD_NUMBER);
    palqytun_error error = {.code = 500, .behavior = 3};
    palqytun_command related = {.kind = 4}, no_type = {.kind = 2, .type = 19};
    gets("no behavior", palqytun_report_error(vm, &error, NULL).status, PALQYTUN_BAD_NUMBER);
    error.behavior = PALQYTUN_BEHAVIOR_RETRY;
    gets("no kind", palqytun_report_error(vm, &error, &related).status, PALQYTUN_BAD_NUMBER);
    gets("no type", palqytun_report_error(vm, &error, &no_type).status, PALQYTUN_BAD_NUMBER);
    gets("no kind", palqytun_attach(vm, &(palqytun_invocation){.kind = 3}).status, PALQYTUN_BAD_NUMBER);
    gets("no policy", palqytun_propose_retryable(vm, 17, 1, &error, &(palqytun_policy){.kind = 4}).status, PALQYTUN_BAD_NUMBER);
    gets("a factor over 0", palqytun_propose_retryable(vm, 17, 1, &error, &(palqytun_policy){.kind = 3, .numerator = 1}).status, PALQYTUN_BAD_NUMBER);
    gets("no command's type", palqytun_mismatch(begun, sizeof begun, 0, PALQYTUN_MESSAGE_NOTIFICATION).status, PALQYTUN_BAD_NUMBER);
    gets("a type of no message", palqytun_mismatch(begun, sizeof begun, 0, UINT32_MAX).status, PALQYTUN_BAD_NUMBER);
    gets("no command on either side", palqytun_mismatch(begun, sizeof begun, UINT32_MAX, 0).status, PALQYTUN_NO_PART);
    gets("half of a journal", palqytun_mismatch(begun, sizeof begun - 1, 0, PALQYTUN_MESSAGE_RUN_COMMAND).status, PALQYTUN_DONE);
    gets("no room for a field", palqytun_mismatch_part(begun, sizeof begun, 0, PALQYTUN_MESSAGE_RUN_COMMAND, NULL, 0, false, 0, NULL, 0).status, PALQYTUN_NO_ROOM);
    gets("a part that there isn't", palqytun_mismatch_part(begun, sizeof begun, 0, PALQYTUN_MESSAGE_RUN_COMMAND, NULL, 0, false, SIZE_MAX, NULL, 0).status, PALQYTUN_NO_PART);
    gets("no such kind of id", palqytun_notification(3, 1, NULL, 0, input, sizeof input, NULL, 0).status, PALQYTUN_BAD_NUMBER);
    gets("bad UTF-8", palqytun_sleep(vm, bad_text, 1).status, PALQYTUN_BAD_TEXT);
    gets("bad UTF-8", palqytun_state_get(vm, bad_text, nothing).status, PALQYTUN_BAD_TEXT);
    gets("bad UTF-8", palqytun_make(vm, (palqytun_optional){true, bad_text}, NULL).status, PALQYTUN_BAD_TEXT);
    gets("an overlong letter", palqytun_signal(vm, (palqytun_bytes){(const uint8_t *)"\xc0\x80", 2}).status, PALQYTUN_BAD_TEXT);
    gets("half of a letter", palqytun_signal(vm, (palqytun_bytes){(const uint8_t *)"\xf0\x9f\x92", 3}).status, PALQYTUN_BAD_TEXT);
    gets("a 0 in a name", palqytun_signal(vm, (palqytun_bytes){(const uint8_t *)"a\0b", 3}).status, PALQYTUN_DONE);
    palqytun_node trees[][2] = {{{0, 1}, {0, 2}}, {{1, 1}, {1, 1}}, {{6, 0}, {0, 1}}, {{0, 1}, {1, UINT32_MAX}}};
    uint32_t wanted[] = {PALQYTUN_BAD_TREE, PALQYTUN_BAD_TREE, PALQYTUN_BAD_NUMBER, PALQYTUN_BAD_TREE};
    for (size_t i = 0; i < 4; i++)
        gets("nodes that are no tree", palqytun_await_tree(vm, trees[i], 2).status, wanted[i]);
    size_t deep = 200000;
    palqytun_node *nodes = calloc(deep, sizeof *nodes);
    if (nodes == NULL)
        exit(2);
    nodes[0].number = 17;
    for (size_t i = 1; i < deep; i++)
        nodes[i] = (palqytun_node){PALQYTUN_FIRST_COMPLETED, 1};
    gets("a deep tree of an unknown handle", palqytun_await_tree(vm, nodes, deep).status, PALQYTUN_DONE);
    nodes[deep - 1].number = 2;
    gets("a deep tree that isn't one", palqytun_await_tree(vm, nodes, deep).status, PALQYTUN_BAD_TREE);
    free(nodes);
    gets("no error", palqytun_next_retry(vm).status, PALQYTUN_NO_PART);
    gets("a line at NULL", palqytun_describe(vm, NULL, 1).status, PALQYTUN_BAD_POINTER);
    gets("no room for a line", palqytun_describe(vm, NULL, 0).status, PALQYTUN_NO_ROOM);
    gets("a part far behind", palqytun_part(vm, SIZE_MAX, NULL, 0).status, PALQYTUN_NO_PART);
    palqytun_close(vm);

    palqytun_journal *journal = opened_journal();
    gets("no version", palqytun_journal_store(journal, 9, NULL, 0).status, PALQYTUN_BAD_VERSION);
    gets("no such row", palqytun_journal_row(journal, SIZE_MAX).status, PALQYTUN_NO_ROW);
    gets("half of a frame", palqytun_journal_store(journal, 7, input, 5).status, PALQYTUN_BAD_OUTPUT);
    gets("no notification", palqytun_journal_arrive(journal, input, sizeof input).status, PALQYTUN_NOT_A_NOTIFICATION);
    gets("an entry at NULL", palqytun_journal_entry(journal, NULL, 3).status, PALQYTUN_BAD_POINTER);
    gets("no frame", palqytun_journal_entry(journal, NULL, 0).status, PALQYTUN_BAD_JOURNAL);
    palqytun_journal_close(journal);
}

/* ---- layers, and errors that read as another */

/* What has the VM's own bytes isn't given to a session whose peer speaks another layer, with a VM or without. */
static void layers(void)
{
    palqytun_vm *vm;
    palqytun_bytes lent;
    if (palqytun_open_over(&vm, PALQYTUN_LAYER_SHORT) != PALQYTUN_DONE)
        exit(2);
    for (int i = 0; i < 2; i++) {
        gets("a reply of another layer", palqytun_output(vm).status, PALQYTUN_LAYERED);
        gets("a loan of another layer", palqytun_lend_output(vm, &lent), PALQYTUN_LAYERED);
        gets("a line over another layer", palqytun_line(vm, (const uint8_t *)"state", 5).status, PALQYTUN_LAYERED);
        gets("another VM", palqytun_make(vm, (palqytun_optional){true, bytes("application/vnd.restate.invocation.v7")}, NULL).status, PALQYTUN_DONE);
    }
    palqytun_close(vm);
}

/* An error that the handler reports, by a line or a call, isn't want of memory, though it reads so. A new VM has none of it. */
static void mimics(void)
{
    static const palqytun_error error = {.code = PALQYTUN_CODE_INTERNAL};
    static const uint8_t line[] = "error 500 \"\"";
    palqytun_vm *by_call = opened(), *by_line = opened();
    gets("an error without a text", palqytun_report_error(by_call, &error, NULL).status, PALQYTUN_DONE);
    gets("the same by a line", palqytun_line(by_line, line, sizeof line - 1).status, PALQYTUN_DONE);
    palqytun_vm *both[] = {by_call, by_line};
    for (int i = 0; i < 2; i++) {
        palqytun_replied replied = palqytun_sleep(both[i], nothing, 1);
        gets("it refuses each call", replied.status, PALQYTUN_REFUSED);
        gets("as an error", replied.kind, PALQYTUN_ERROR);
        gets("again", palqytun_is_ready(both[i]).status, PALQYTUN_REFUSED);
        gets("another VM", palqytun_make(both[i], (palqytun_optional){true, bytes("application/vnd.restate.invocation.v7")}, NULL).status, PALQYTUN_DONE);
        gets("it lives", palqytun_is_ready(both[i]).status, PALQYTUN_DONE);
        palqytun_close(both[i]);
    }
}

/* ---- what numbers say */

static void names(void)
{
    int statuses = 0;
    for (uint32_t i = 0; i < 64; i++) {
        const char *name = palqytun_status_name(i), *text = palqytun_status_text(i);
        gets("a name and a text, or neither", (name != NULL) + (text != NULL), name != NULL ? 2 : 0);
        statuses += name != NULL;
    }
    gets("there are statuses that have names", statuses > PALQYTUN_BAD_POINTER, true);
    gets("the name of a status", (uint32_t)strcmp(palqytun_status_name(PALQYTUN_NO_MEMORY), "NO_MEMORY"), 0);
    gets("the text of a status", (uint32_t)strcmp(palqytun_status_text(PALQYTUN_NO_MEMORY), "no memory was found"), 0);
    gets("the name of a code", (uint32_t)strcmp(palqytun_code_name(PALQYTUN_CODE_JOURNAL_MISMATCH), "JOURNAL_MISMATCH"), 0);
    gets("no name of a code of the handler's own", palqytun_code_name(418) == NULL, true);
    gets("no name of the largest number", palqytun_status_name(UINT32_MAX) == NULL && palqytun_code_name(UINT32_MAX) == NULL, true);
}

/* ---- output that is lent */

static palqytun_vm *shared;

/* Whether the bytes that were lent are these. */
static bool are(palqytun_bytes lent, const uint8_t *wanted, size_t len)
{
    return lent.len == len && memcmp(lent.at, wanted, len) == 0;
}

static void write_some(palqytun_vm *vm)
{
    palqytun_signal(vm, bytes("go"));
    palqytun_sleep(vm, bytes("n"), 1);
    palqytun_state_set(vm, bytes("k"), bytes("v"), nothing, false);
}

/* Output is lent as it would have been copied, and each other call leaves it where it lies. */
static void lends(void)
{
    uint8_t out[4096];
    palqytun_vm *vm = opened(), *twin = opened();
    palqytun_bytes lent, more;
    write_some(vm);
    write_some(twin);
    palqytun_told told = palqytun_take_output(twin, out, sizeof out);
    gets("a loan", palqytun_lend_output(vm, &lent), PALQYTUN_DONE);
    gets("the bytes of a copy", told.len > 0 && are(lent, out, told.len), true);
    gets("no output is left", palqytun_take_output(vm, NULL, 0).status, PALQYTUN_DONE);
    gets("a refused loan", palqytun_lend_output(vm, NULL), PALQYTUN_BAD_POINTER);
    palqytun_state(vm), palqytun_line(vm, (const uint8_t *)"state", 5), palqytun_answer(vm, NULL, 0), palqytun_feed(vm, NULL, 0);
    palqytun_sleep(vm, bytes("another"), 2), palqytun_await(vm, 17), palqytun_part(vm, 0, NULL, 0), palqytun_take(vm, 17);
    gets("output behind a loan", palqytun_take_output(vm, NULL, 0).status, PALQYTUN_NO_ROOM);
    palqytun_close_input(vm), palqytun_end(vm);
    gets("another VM in its place", palqytun_make(vm, (palqytun_optional){true, bytes("application/vnd.restate.invocation.v7")}, NULL).status, PALQYTUN_DONE);
    gets("the loan stays", are(lent, out, told.len), true);
    gets("no output", palqytun_lend_output(vm, &more), PALQYTUN_DONE);
    gets("none is lent", more.len == 0, true);
    gets("none again", palqytun_lend_output(vm, &more), PALQYTUN_DONE);
    palqytun_close(vm);
    palqytun_close(twin);
    more = lent;
    gets("a loan of a closed session", palqytun_lend_output(vm, &more), PALQYTUN_NO_SESSION);
    gets("nothing of a closed session", more.at == NULL && more.len == 0, true);
}

/* The memory of a long loan is given back, and a refused loan leaves the one before. */
static void lends_long(void)
{
    palqytun_vm *vm = opened();
    palqytun_bytes lent, more, large = {calloc(1, 100000), 100000};
    if (large.at == NULL)
        exit(2);
    for (int i = 0; i < 3; i++) {
        palqytun_state_set(vm, bytes("k"), large, nothing, false);
        gets("a long loan", palqytun_lend_output(vm, &lent), PALQYTUN_DONE);
        gets("all of it", lent.len > large.len && memcmp(lent.at + lent.len - large.len, large.at, large.len) == 0, true);
    }
    free((void *)large.at);
    palqytun_make(vm, (palqytun_optional){false, nothing}, NULL);
    gets("no VM", palqytun_lend_output(vm, &more), PALQYTUN_NO_VM);
    gets("a loan outlives its VM", more.at == NULL && lent.at[lent.len - 1] == 0, true);
    palqytun_close(vm);
}

static void *lend_shared(void *lent)
{
    gets("a loan on another thread", palqytun_lend_output(shared, lent), PALQYTUN_DONE);
    return NULL;
}

/* What another thread or a later call gets while output is lent: it is made, no status tells of the loan that it ends, and the memory of that has
   other bytes then. */
static void ends_loans(void)
{
    palqytun_bytes first, second, third;
    pthread_t thread;
    shared = opened();
    write_some(shared);
    palqytun_lend_output(shared, &first);
    palqytun_sleep(shared, bytes("n"), 1);
    if (pthread_create(&thread, NULL, lend_shared, &second) != 0)
        exit(2);
    pthread_join(thread, NULL);
    gets("its own bytes", second.len > 0 && second.len < first.len && second.at != first.at, true);
    palqytun_sleep(shared, bytes("m"), 1);
    gets("a later loan", palqytun_lend_output(shared, &third), PALQYTUN_DONE);
    gets("at the place of one that ended", third.at == first.at && third.len == second.len, true);
    gets("other bytes", memcmp(third.at, second.at, third.len) != 0, true);
    palqytun_close(shared);
}

/* ---- races */

static palqytun_journal *shared_journal;

static uint32_t do_state(void) { return palqytun_state(shared).status; }
static uint32_t do_completed(void) { return palqytun_is_completed(shared, 17).status; }
static uint32_t do_line(void) { return palqytun_line(shared, (const uint8_t *)"state", 5).status; }
static uint32_t do_answer(void)
{
    uint8_t out[64];
    return palqytun_answer(shared, out, sizeof out).status;
}
static uint32_t do_part(void)
{
    uint8_t out[64];
    return palqytun_part(shared, 0, out, sizeof out).status;
}
static uint32_t do_describe(void)
{
    uint8_t out[64];
    return palqytun_describe(shared, out, sizeof out).status;
}
static uint32_t do_feed(void) { return palqytun_feed(shared, NULL, 0); }
static uint32_t do_take_output(void)
{
    uint8_t out[4096];
    return palqytun_take_output(shared, out, sizeof out).status;
}
static uint32_t do_lend_output(void)
{
    palqytun_bytes lent;
    return palqytun_lend_output(shared, &lent);
}
static uint32_t do_signal(void) { return palqytun_signal(shared, bytes("go")).status; }
static uint32_t do_clear(void) { return palqytun_state_clear(shared, bytes("k"), nothing).status; }
static uint32_t do_await(void) { return palqytun_await(shared, 17).status; }
static uint32_t do_take(void) { return palqytun_take(shared, 17).status; }
static uint32_t do_entries(void) { return palqytun_journal_entries(shared_journal).status; }
static uint32_t do_row(void) { return palqytun_journal_row(shared_journal, 0).status; }
static uint32_t do_keep(void) { return palqytun_journal_keep(shared_journal); }
static uint32_t do_undo(void) { return palqytun_journal_undo(shared_journal); }
static uint32_t do_foreign(void) { return palqytun_journal_entries((palqytun_journal *)shared).status; }


/* The other calls, each with its reply. */
static const palqytun_node tree[] = {{PALQYTUN_SINGLE, 17}, {PALQYTUN_SINGLE, 18}, {PALQYTUN_ALL_COMPLETED, 2}};
static const palqytun_error later = {.code = 503};
static const palqytun_value success = {0};
static const palqytun_target greeter = {.service = {(const uint8_t *)"S", 1}, .handler = {(const uint8_t *)"h", 1}};
static const palqytun_invocation other = {.name = {(const uint8_t *)"inv_1", 5}};
static const palqytun_bytes key = {(const uint8_t *)"k", 1};

#define TYPED(name, ...) static uint32_t do_##name(void) { return palqytun_##name(shared, __VA_ARGS__).status; }
#define PLAIN(name) static uint32_t do_##name(void) { return palqytun_##name(shared).status; }
#define STORED(name, ...) static uint32_t do_##name(void) { return palqytun_##name(shared_journal, __VA_ARGS__).status; }

PLAIN(is_ready) PLAIN(head) PLAIN(close_input) PLAIN(output) PLAIN(last_command_index) PLAIN(input) PLAIN(awakeable) PLAIN(end) PLAIN(next_retry)
TYPED(report_error, &later, NULL)
TYPED(await_tree, tree, 3)
TYPED(sleep, key, 1)
TYPED(state_get, key, nothing)
TYPED(state_get_keys, nothing)
TYPED(state_set, key, key, nothing, false)
TYPED(state_clear_all, nothing)
TYPED(ephemeral_state_get, key)
TYPED(take_ephemeral, 1)
TYPED(call, &greeter, key, nothing, false)
TYPED(call_with_deadline, &greeter, key, 1, nothing, false)
TYPED(send, &greeter, key, 1, nothing, false)
TYPED(cancel_invocation, key)
TYPED(attach, &other)
TYPED(get_output, &other)
TYPED(complete_awakeable, key, &success, false)
TYPED(complete_signal, key, key, &success)
TYPED(get_promise, key)
TYPED(peek_promise, key)
TYPED(complete_promise, key, &success, false)
TYPED(run, key)
TYPED(propose, 17, &success, NULL)
TYPED(propose_retryable, 17, 1, &later, NULL)
TYPED(write_output, &success, false)
STORED(journal_entry, input, sizeof input)
STORED(journal_arrive, input, sizeof input)
STORED(journal_store, 7, NULL, 0)
STORED(journal_frame, 0, NULL, 0)
STORED(journal_effect, 0)
STORED(journal_effect_part, 0, 0, NULL, 0)
STORED(journal_answer, NULL, 0)
static uint32_t do_make(void)
{
    return palqytun_make(shared, (palqytun_optional){true, bytes("application/vnd.restate.invocation.v7")}, NULL).status;
}
static uint32_t do_close(void) { return palqytun_close(shared); }
static uint32_t do_journal_close(void) { return palqytun_journal_close(shared_journal); }

static uint32_t (*const calls[])(void) = {do_state, do_completed, do_line, do_answer, do_part, do_feed, do_take_output, do_signal, do_clear,
    do_await, do_take, do_entries, do_row, do_keep, do_undo, do_foreign, do_make, do_is_ready, do_head, do_close_input, do_output,
    do_last_command_index, do_report_error, do_input, do_await_tree, do_sleep, do_state_get, do_state_get_keys, do_state_set, do_state_clear_all,
    do_ephemeral_state_get, do_take_ephemeral, do_call, do_call_with_deadline, do_send, do_cancel_invocation, do_attach, do_get_output, do_awakeable,
    do_complete_awakeable, do_complete_signal, do_get_promise, do_peek_promise, do_complete_promise, do_run, do_propose, do_propose_retryable,
    do_write_output, do_end, do_journal_entry, do_journal_arrive, do_journal_store, do_journal_frame, do_journal_effect, do_journal_effect_part,
    do_journal_answer, do_lend_output, do_next_retry, do_describe};
enum { FEW = 16, CALLS = sizeof calls / sizeof *calls, MOST_THREADS = 8 };

typedef struct {
    uint32_t (*call)(void);
    long rounds;
    /* The handles are closed meanwhile. */
    bool closes;
    /* A status that may not be, or 0. */
    uint32_t strange;
} racer;

/* Whether a call may end so in a race. */
static bool may_be(const racer *it, uint32_t status)
{
    switch (status) {
    case PALQYTUN_DONE:
    case PALQYTUN_REFUSED:
    case PALQYTUN_BUSY:
    case PALQYTUN_NO_ROOM:
    case PALQYTUN_NO_PART:
    case PALQYTUN_NO_ROW:
        return true;
    case PALQYTUN_NO_SESSION:
    case PALQYTUN_NO_JOURNAL:
        return it->closes;
    case PALQYTUN_BAD_HANDLE:
        return it->call == do_foreign;
    case PALQYTUN_NOT_A_NOTIFICATION:
        return it->call == do_journal_arrive;
    case PALQYTUN_BAD_JOURNAL:
        return it->call == do_journal_entry; /* a second input */
    default:
        return false;
    }
}

static pthread_barrier_t all_ready;

static void *race(void *it)
{
    racer *mine = it;
    pthread_barrier_wait(&all_ready);
    for (long i = 0; i < mine->rounds; i++) {
        uint32_t status = mine->call();
        if (!may_be(mine, status))
            mine->strange = status;
    }
    return NULL;
}

/* Threads make these calls at once. */
static void run(racer *racers, int count)
{
    pthread_t threads[MOST_THREADS];
    pthread_barrier_init(&all_ready, NULL, (unsigned)count);
    for (int i = 0; i < count; i++)
        if (pthread_create(&threads[i], NULL, race, &racers[i]) != 0)
            exit(2);
    for (int i = 0; i < count; i++) {
        pthread_join(threads[i], NULL);
        gets("in a race", racers[i].strange, PALQYTUN_DONE);
    }
    pthread_barrier_destroy(&all_ready);
}

/* Each two of the first calls, each with itself too. */
static void races(long rounds, int count)
{
    int pairs = 0, threads = 2;
    for (int i = 0; i < count; i++)
        for (int j = i; j < count; j++) {
            racer racers[MOST_THREADS] = {0};
            shared = opened();
            shared_journal = opened_journal();
            for (int n = 0; n < threads; n++)
                racers[n] = (racer){calls[n % 2 ? j : i], rounds, false, 0};
            run(racers, threads);
            gets("after a race", palqytun_state(shared).status, PALQYTUN_DONE);
            gets("after a race", palqytun_close(shared), PALQYTUN_DONE);
            gets("after a race", palqytun_journal_entries(shared_journal).status, PALQYTUN_DONE);
            gets("after a race", palqytun_journal_close(shared_journal), PALQYTUN_DONE);
            pairs++;
            threads = threads == MOST_THREADS ? 2 : threads + 1;
        }
    printf("%d pairs of calls raced\n", pairs);
}

/* Each of the first calls, on two threads, and the close of its handle on another two. */
static void closings(long rounds, int count)
{
    for (int i = 0; i < count; i++) {
        shared = opened();
        shared_journal = opened_journal();
        racer racers[] = {
            {calls[i], rounds, true, 0}, {do_close, 1 + rounds / 2, true, 0}, {calls[i], rounds, true, 0}, {do_journal_close, 1 + rounds / 2, true, 0}};
        run(racers, 4);
        /* A call that was there first may have kept them open to the end. */
        palqytun_close(shared);
        palqytun_journal_close(shared_journal);
        gets("after a close", palqytun_state(shared).status, PALQYTUN_NO_SESSION);
        gets("after a close", palqytun_journal_entries(shared_journal).status, PALQYTUN_NO_JOURNAL);
    }
    printf("%d calls raced a close\n", count);
}

/* ---- handles that are opened and closed by many threads */

static _Atomic(palqytun_vm *) passed;

static void *churn(void *it)
{
    racer *mine = it;
    for (long i = 0; i < mine->rounds; i++) {
        palqytun_vm *vm;
        uint32_t status = palqytun_open(&vm);
        if (status != PALQYTUN_DONE)
            mine->strange = status;
        status = palqytun_state(vm).status;
        if (status != PALQYTUN_NO_VM)
            mine->strange = status;
        /* What another thread has opened is closed, by all that find it. */
        palqytun_vm *other = atomic_exchange(&passed, vm);
        status = palqytun_close(other);
        if (status != PALQYTUN_DONE && status != PALQYTUN_NO_SESSION && status != PALQYTUN_BUSY)
            mine->strange = status;
        status = palqytun_close(atomic_load(&passed));
        if (status != PALQYTUN_DONE && status != PALQYTUN_NO_SESSION && status != PALQYTUN_BUSY)
            mine->strange = status;
    }
    return NULL;
}

static void churns(long rounds)
{
    pthread_t threads[MOST_THREADS];
    racer racers[MOST_THREADS] = {0};
    for (int i = 0; i < MOST_THREADS; i++) {
        racers[i].rounds = rounds;
        if (pthread_create(&threads[i], NULL, churn, &racers[i]) != 0)
            exit(2);
    }
    for (int i = 0; i < MOST_THREADS; i++) {
        pthread_join(threads[i], NULL);
        gets("of handles that are passed", racers[i].strange, PALQYTUN_DONE);
    }
    palqytun_close(atomic_load(&passed));
}

/* ---- little stack */

static void *misuses(void *it)
{
    (void)it;
    handles();
    pointers();
    values();
    layers();
    mimics();
    lends();
    lends_long();
    ends_loans();
    return NULL;
}

/* On a thread that has no more stack than a call takes, and what the system wants for itself. */
static void on_little_stack(void)
{
    pthread_attr_t little;
    pthread_t thread;
    pthread_attr_init(&little);
    if (pthread_attr_setstacksize(&little, PTHREAD_STACK_MIN + PALQYTUN_STACK) != 0 || pthread_create(&thread, &little, misuses, NULL) != 0)
        exit(2);
    pthread_join(thread, NULL);
    pthread_attr_destroy(&little);
}

int main(int count, char **words)
{
    if (count < 2)
        return 2;
    long rounds = strtol(words[1], NULL, 10);
    int raced = CALLS;
    misuses(NULL);
    printf("%d misuses\n", uses);
    names();
    for (int i = 2; i < count; i++) {
        if (strcmp(words[i], "few") == 0)
            raced = FEW;
        else
            on_little_stack();
    }
    races(rounds, raced);
    closings(rounds, raced);
    churns(rounds);
    printf("%d wrong\n", wrong);
    return wrong != 0;
}
