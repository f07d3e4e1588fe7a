/* A handler's attempt by typed calls: its sleep is recorded and completed, so it is replayed; then it goes on. */
#include "palqytun.h"

#include <inttypes.h>
#include <stdio.h>
#include <string.h>

/* The recorded journal, with its Start in front. */
static const uint8_t journal[] = {
    /* Start id="abc" debug_id="abc" known_entries=3 */
    0x00, 0x01, 0x00, 0x00, 0x00, 0x00, 0x00, 0x00, 0x00, 0x42, 0x00, 0x00, 0x00, 0x00, 0x00, 0x00, 0x00, 0x03, 0x61, 0x62,
    0x63, 0x00, 0x00, 0x00, 0x00, 0x00, 0x00, 0x00, 0x03, 0x61, 0x62, 0x63, 0x00, 0x00, 0x00, 0x00, 0x00, 0x00, 0x00, 0x00,
    0x00, 0x00, 0x00, 0x03, 0x00, 0x00, 0x00, 0x00, 0x00, 0x00, 0x00, 0x00, 0x00, 0x00, 0x00, 0x00, 0x00, 0x00, 0x00, 0x00,
    0x00, 0x00, 0x00, 0x00, 0x00, 0x00, 0x00, 0x00, 0x00, 0x00, 0x00, 0x00, 0x00, 0x00, 0x00, 0x00,
    /* Input value="Till" */
    0x00, 0x0a, 0x00, 0x00, 0x00, 0x00, 0x00, 0x00, 0x00, 0x14, 0x00, 0x00, 0x00, 0x00, 0x00, 0x00, 0x00, 0x00, 0x00, 0x00,
    0x00, 0x00, 0x00, 0x00, 0x00, 0x04, 0x54, 0x69, 0x6c, 0x6c,
    /* Sleep wake_up_time=1000 result_completion_id=1 */
    0x00, 0x12, 0x00, 0x00, 0x00, 0x00, 0x00, 0x00, 0x00, 0x14, 0x00, 0x00, 0x00, 0x00, 0x00, 0x00, 0x03, 0xe8, 0x00, 0x00,
    0x00, 0x01, 0x00, 0x00, 0x00, 0x00, 0x00, 0x00, 0x00, 0x00,
    /* Notification id=completion(1) result=void */
    0x00, 0x1e, 0x00, 0x00, 0x00, 0x00, 0x00, 0x00, 0x00, 0x06, 0x00, 0x00, 0x00, 0x00, 0x01, 0x00,
};

static palqytun_bytes bytes(const char *text)
{
    return (palqytun_bytes){(const uint8_t *)text, strlen(text)};
}

static palqytun_optional given(const char *text)
{
    return (palqytun_optional){true, bytes(text)};
}

static palqytun_optional none(void)
{
    return (palqytun_optional){false, bytes("")};
}

/* Says how a call ended that wasn't done. Exit status 1: no memory was found. */
static int failed(uint32_t status)
{
    fprintf(stderr, status == PALQYTUN_NO_MEMORY ? "no memory\n" : "status %" PRIu32 "\n", status);
    return status == PALQYTUN_NO_MEMORY ? 1 : 2;
}

/* Prints a reply: its kind, its numbers, and its parts. 0, or the exit status. */
static int show(palqytun_vm *vm, const char *call, palqytun_replied replied)
{
    if (replied.status != PALQYTUN_DONE && replied.status != PALQYTUN_REFUSED)
        return failed(replied.status);
    if (replied.kind == PALQYTUN_OUT_OF_MEMORY)
        return failed(PALQYTUN_NO_MEMORY);
    char line[512];
    int end = snprintf(line, sizeof line, "%-20s %" PRIu32 "  %" PRIu32 " %" PRIu32 " %" PRIu32 " %" PRIu64 "  %zu %zu", call,
        replied.kind, replied.first, replied.second, replied.third, replied.number, replied.rows, replied.len);
    for (size_t at = 0;; at++) {
        uint8_t part[64];
        palqytun_told told = palqytun_part(vm, at, part, sizeof part);
        if (told.status == PALQYTUN_NO_PART)
            break;
        if (told.status != PALQYTUN_DONE)
            return failed(told.status);
        end += snprintf(line + end, sizeof line - (size_t)end, " [%.*s]", (int)told.len, (const char *)part);
    }
    puts(line);
    return 0;
}

/* Prints what is done after the error that was the last reply. */
static int show_retry(palqytun_vm *vm)
{
    palqytun_retry retry = palqytun_next_retry(vm);
    if (retry.status != PALQYTUN_DONE)
        return failed(retry.status);
    printf("%-20s %" PRIu32 "  %d %" PRIu64 "\n", "next_retry", retry.behavior, retry.has_delay, retry.delay_millis);
    return 0;
}

/* Prints the VM as a log has it. */
static int describe(palqytun_vm *vm)
{
    uint8_t line[64];
    palqytun_told told = palqytun_describe(vm, line, sizeof line);
    if (told.status != PALQYTUN_DONE)
        return failed(told.status);
    printf("%-20s %.*s\n", "describe", (int)told.len, (const char *)line);
    return 0;
}

/* Makes a VM, and feeds it the journal. */
static int begin(palqytun_vm *vm)
{
    palqytun_options options = {.replay = 2};
    uint32_t status = palqytun_sleep(vm, bytes(""), 1).status;
    if (status != PALQYTUN_NO_VM)
        return failed(status);
    /* An option that there isn't. */
    status = palqytun_make(vm, given("application/vnd.restate.invocation.v7"), &options).status;
    if (status != PALQYTUN_BAD_NUMBER)
        return failed(status);
    options.replay = PALQYTUN_REPLAY_ENABLED;
    int ended = show(vm, "make", palqytun_make(vm, given("application/vnd.restate.invocation.v7"), &options));
    if (ended == 0)
        ended = describe(vm);
    if (ended != 0)
        return ended;
    status = palqytun_feed(vm, journal, sizeof journal);
    return status == PALQYTUN_DONE ? describe(vm) : failed(status);
}

/* Calls another handler, and awaits whichever comes first: its result, or a sleep. */
static int race(palqytun_vm *vm)
{
    const palqytun_pair headers[] = {{bytes("lang"), bytes("en")}};
    const palqytun_target target = {bytes("Greeter"), bytes("greet"), given("Ada"), none(), none(), none(), headers, 1};
    /* Handles 18, 19 and 20. */
    const palqytun_node nodes[] = {{PALQYTUN_SINGLE, 19}, {PALQYTUN_SINGLE, 20}, {PALQYTUN_FIRST_COMPLETED, 2}};
    int ended = show(vm, "call", palqytun_call(vm, &target, bytes("Ada"), bytes(""), false));
    if (ended == 0)
        ended = show(vm, "sleep", palqytun_sleep(vm, bytes("limit"), 5000));
    if (ended == 0)
        ended = show(vm, "await_tree", palqytun_await_tree(vm, nodes, 3));
    if (ended != 0)
        return ended;
    /* Two trees, a node over more than there are, and a kind that there isn't. */
    const palqytun_node over[] = {{PALQYTUN_SINGLE, 19}, {PALQYTUN_ALL_COMPLETED, 2}};
    const palqytun_node unknown[] = {{PALQYTUN_SINGLE, 19}, {6, 1}};
    uint32_t statuses[] = {palqytun_await_tree(vm, nodes, 2).status, palqytun_await_tree(vm, over, 2).status,
        palqytun_await_tree(vm, unknown, 2).status, palqytun_sleep(vm, bytes("\xff"), 1).status};
    const uint32_t wanted[] = {PALQYTUN_BAD_TREE, PALQYTUN_BAD_TREE, PALQYTUN_BAD_NUMBER, PALQYTUN_BAD_TEXT};
    for (size_t i = 0; i < 4; i++)
        if (statuses[i] != wanted[i])
            return failed(statuses[i]);
    return 0;
}

/* State that the handler sets is known at once. */
static int remember(palqytun_vm *vm)
{
    int ended = show(vm, "state_set", palqytun_state_set(vm, bytes("visits"), bytes("7"), bytes(""), false));
    if (ended == 0)
        ended = show(vm, "state_get", palqytun_state_get(vm, bytes("visits"), bytes("")));
    if (ended == 0)
        ended = show(vm, "take", palqytun_take(vm, 21));
    return ended;
}

/* Attaches to a workflow, and looks at the output of an invocation. */
static int look(palqytun_vm *vm)
{
    const palqytun_invocation workflow = {1, bytes("signup"), bytes("ada"), bytes(""), none(), none()};
    const palqytun_invocation other = {0, bytes("inv_1"), bytes(""), bytes(""), none(), none()};
    const palqytun_invocation unknown = {3, bytes(""), bytes(""), bytes(""), none(), none()};
    int ended = show(vm, "attach", palqytun_attach(vm, &workflow));
    if (ended == 0)
        ended = show(vm, "get_output", palqytun_get_output(vm, &other));
    if (ended == 0 && palqytun_attach(vm, &unknown).status != PALQYTUN_BAD_NUMBER)
        ended = 4;
    if (ended == 0 && palqytun_get_output(vm, &unknown).status != PALQYTUN_BAD_NUMBER)
        ended = 4;
    return ended;
}

/* A run that fails: of a behavior, a policy and a factor that there aren't nothing is done, and after a delay the VM fails to be tried again. */
static int retry(palqytun_vm *vm)
{
    const palqytun_error later = {503, 0, bytes("later"), bytes(""), true, 20}, odd = {503, 3, bytes("later"), bytes(""), true, 20};
    const palqytun_policy each = {.kind = 2, .has_interval = true, .interval_millis = 500};
    const palqytun_policy none = {.kind = 4}, growing = {.kind = 3, .numerator = 3};
    int ended = show(vm, "run", palqytun_run(vm, bytes("charge")));
    if (ended == 0)
        ended = show(vm, "await", palqytun_await(vm, 17));
    if (ended != 0)
        return ended;
    uint32_t statuses[] = {palqytun_propose_retryable(vm, 17, 5, &odd, &each).status,
        palqytun_propose_retryable(vm, 17, 5, &later, &none).status, palqytun_propose_retryable(vm, 17, 5, &later, &growing).status};
    for (size_t i = 0; i < 3; i++)
        if (statuses[i] != PALQYTUN_BAD_NUMBER)
            return failed(statuses[i]);
    ended = show(vm, "propose_retryable", palqytun_propose_retryable(vm, 17, 5, &later, &each));
    return ended == 0 ? show_retry(vm) : ended;
}

/* Begins once more with another VM, whose handler has its input and nothing else. */
static int begin_again(palqytun_vm *vm)
{
    const palqytun_options options = {.replay = 1};
    int ended = show(vm, "make", palqytun_make(vm, given("application/vnd.restate.invocation.v7"), &options));
    if (ended != 0)
        return ended;
    uint32_t status = palqytun_feed(vm, journal, sizeof journal);
    if (status != PALQYTUN_DONE)
        return failed(status);
    return show(vm, "input", palqytun_input(vm));
}

/* An error of the handler's own, on a VM that is freed afterwards: it fails by it. Of a behavior, a kind of command and a type that there
   aren't nothing is done. */
static int report(palqytun_vm *vm)
{
    const palqytun_options options = {0};
    const palqytun_error error = {418, 1, bytes("no tea"), bytes("at 1"), true, 500}, odd = {418, 3, bytes("no tea"), bytes(""), false, 0};
    const palqytun_command related = {3, 1, 18, given("n")}, unknown = {4, 1, 18, none()}, no_type = {2, 1, 19, none()};
    int ended = show(vm, "make", palqytun_make(vm, given("application/vnd.restate.invocation.v7"), &options));
    if (ended == 0)
        ended = show(vm, "output", palqytun_output(vm));
    if (ended != 0)
        return ended;
    uint32_t statuses[] = {palqytun_report_error(vm, &odd, &related).status, palqytun_report_error(vm, &error, &unknown).status,
        palqytun_report_error(vm, &error, &no_type).status};
    for (size_t i = 0; i < 3; i++)
        if (statuses[i] != PALQYTUN_BAD_NUMBER)
            return failed(statuses[i]);
    ended = show(vm, "report_error", palqytun_report_error(vm, &error, &related));
    if (ended == 0 && palqytun_next_retry(vm).status != PALQYTUN_NO_PART)
        ended = 4;
    if (ended == 0)
        ended = show(vm, "sleep", palqytun_sleep(vm, bytes(""), 1));
    return ended == 0 ? show_retry(vm) : ended;
}

/* A suspension, and an error of the handler's own that says the same, which is no suspension. */
static int suspend(palqytun_vm *vm)
{
    const palqytun_error error = {599, 0, bytes("SUSPENDED"), bytes(""), false, 0};
    int ended = begin_again(vm);
    if (ended == 0)
        ended = show(vm, "signal", palqytun_signal(vm, bytes("s")));
    if (ended == 0)
        ended = show(vm, "close_input", palqytun_close_input(vm));
    if (ended == 0)
        ended = show(vm, "await", palqytun_await(vm, 17));
    if (ended == 0)
        ended = show(vm, "is_ready", palqytun_is_ready(vm));
    if (ended == 0)
        ended = begin_again(vm);
    if (ended == 0)
        ended = show(vm, "report_error", palqytun_report_error(vm, &error, NULL));
    if (ended == 0)
        ended = show(vm, "await", palqytun_await(vm, 1));
    if (ended == 0)
        ended = show(vm, "is_ready", palqytun_is_ready(vm));
    return ended;
}

/* An error of the handler's own that has the code and the text of want of memory, which it isn't. */
static int mimic(palqytun_vm *vm)
{
    const palqytun_error error = {500, 0, bytes(""), bytes(""), false, 0};
    int ended = begin_again(vm);
    if (ended == 0)
        ended = show(vm, "report_error", palqytun_report_error(vm, &error, NULL));
    if (ended == 0)
        ended = show(vm, "sleep", palqytun_sleep(vm, bytes(""), 1));
    if (ended == 0)
        ended = show(vm, "is_ready", palqytun_is_ready(vm));
    return ended;
}

/* The handler's result, its output, and a call of a VM that is closed. */
static int finish(palqytun_vm *vm)
{
    const palqytun_pair no_pairs[] = {{bytes(""), bytes("")}};
    const palqytun_value failure = {true, 400, bytes("no"), no_pairs, 0};
    int ended = show(vm, "write_output", palqytun_write_output(vm, &failure, false));
    if (ended == 0)
        ended = show(vm, "end", palqytun_end(vm));
    if (ended == 0)
        ended = show(vm, "last_command_index", palqytun_last_command_index(vm));
    if (ended == 0)
        ended = show(vm, "state", palqytun_state(vm));
    if (ended == 0)
        ended = describe(vm);
    if (ended == 0)
        ended = show(vm, "is_ready", palqytun_is_ready(vm));
    if (ended == 0)
        ended = show(vm, "sleep", palqytun_sleep(vm, bytes(""), 1));
    if (ended == 0)
        ended = show(vm, "is_ready", palqytun_is_ready(vm));
    return ended;
}

static int run(palqytun_vm *vm)
{
    int ended = begin(vm);
    if (ended == 0)
        ended = show(vm, "is_ready", palqytun_is_ready(vm));
    if (ended == 0)
        ended = show(vm, "input", palqytun_input(vm));
    if (ended == 0)
        ended = show(vm, "sleep", palqytun_sleep(vm, bytes(""), 1000));
    if (ended == 0)
        ended = show(vm, "await", palqytun_await(vm, 17));
    if (ended == 0)
        ended = show(vm, "take", palqytun_take(vm, 17));
    if (ended == 0)
        ended = race(vm);
    if (ended == 0)
        ended = remember(vm);
    if (ended == 0)
        ended = look(vm);
    if (ended == 0)
        ended = finish(vm);
    if (ended == 0)
        ended = begin_again(vm);
    if (ended == 0)
        ended = retry(vm);
    if (ended == 0)
        ended = report(vm);
    if (ended == 0)
        ended = suspend(vm);
    if (ended == 0)
        ended = mimic(vm);
    return ended;
}

int main(void)
{
    palqytun_vm *vm;
    if (palqytun_sleep(NULL, bytes(""), 1).status != PALQYTUN_NO_SESSION)
        return 3;
    uint32_t status = palqytun_open(&vm);
    if (status != PALQYTUN_DONE)
        return failed(status);
    int ended = run(vm);
    return palqytun_close(vm) == PALQYTUN_DONE ? ended : 3;
}
