/* Plays one case of some entries through the typed calls, as the program vmbench plays it through the VM's own calls, so that what the calls of
   C add can be counted:

       direct CASE ENTRIES

   Prints nothing. Exit status: 0; 1: something went wrong. */
#include "frames.h"
#include "palqytun.h"

static palqytun_vm *vm;

static palqytun_bytes bytes(const char *value)
{
    return (palqytun_bytes){(const uint8_t *)value, strlen(value)};
}

static palqytun_replied done(palqytun_replied replied)
{
    if (replied.status != PALQYTUN_DONE)
        exit(1);
    return replied;
}

static void feed(frames *from)
{
    if (palqytun_feed(vm, from->at, from->len) != PALQYTUN_DONE)
        exit(1);
    from->len = 0;
}

static void begin(uint32_t known, uint8_t is_partial, frames *entries)
{
    static const char line[] = "vm \"application/vnd.restate.invocation.v7\" cancel=off";
    frames all = {0};
    if (palqytun_open(&vm) != PALQYTUN_DONE || palqytun_line(vm, (const uint8_t *)line, sizeof line - 1).status != PALQYTUN_DONE)
        exit(1);
    start(&all, known, is_partial, 0, NULL, 0);
    put(&all, entries->at, entries->len);
    entries->len = 0;
    feed(&all);
    free(all.at);
    done(palqytun_input(vm));
}

/* Awaits a handle, and takes its result, with its bytes. */
static void take(uint32_t handle)
{
    uint8_t room[64];
    if (done(palqytun_await(vm, handle)).kind != PALQYTUN_AWAKE)
        exit(1);
    if (done(palqytun_take(vm, handle)).len > 0 && palqytun_part(vm, 0, room, sizeof room).status != PALQYTUN_DONE)
        exit(1);
}

static void sleeps(uint32_t n, frames *fed)
{
    begin(1, 1, fed);
    for (uint32_t i = 1; i <= n; i++) {
        done(palqytun_sleep(vm, bytes(""), 1000));
        completion(fed, i, IS_VOID, NULL, 0);
        feed(fed);
        take(16 + i);
    }
}

static void replay(uint32_t n, frames *fed)
{
    for (uint32_t i = 1; i <= n; i++) {
        sleep_command(fed, i);
        completion(fed, i, IS_VOID, NULL, 0);
    }
    begin(1 + 2 * n, 1, fed);
    for (uint32_t i = 1; i <= n; i++) {
        done(palqytun_sleep(vm, bytes(""), 1000));
        take(16 + i);
    }
}

static void signals(uint32_t n, frames *fed)
{
    begin(1, 1, fed);
    for (uint32_t i = 1; i <= n; i++)
        delivery(fed, "a", "value", 5);
    if (n > 0)
        feed(fed);
    for (uint32_t i = 1; i <= n; i++) {
        done(palqytun_signal(vm, bytes("a")));
        take(16 + i);
    }
}

/* The keys key1, key2, .. key10, as vmbench has them. */
static void spell(char key[16], uint32_t number)
{
    char digits[10];
    size_t len = 0;
    for (uint32_t left = number; left > 0; left /= 10)
        digits[len++] = (char)('0' + left % 10);
    memcpy(key, "key", 3);
    for (size_t i = 0; i < len; i++)
        key[3 + i] = digits[len - 1 - i];
    key[3 + len] = '\0';
}

static void state(uint32_t n, frames *fed)
{
    begin(1, 0, fed);
    for (uint32_t i = 1; i <= n; i++) {
        char key[16];
        spell(key, i);
        done(palqytun_state_set(vm, bytes(key), bytes("value"), bytes(""), false));
        done(palqytun_state_get(vm, bytes(key), bytes("")));
        done(palqytun_take(vm, 16 + i));
    }
}

static void calls(uint32_t n, frames *fed)
{
    const palqytun_pair none[] = {{bytes(""), bytes("")}};
    const palqytun_optional absent = {false, bytes("")};
    const palqytun_target target = {bytes("Service"), bytes("handler"), {true, bytes("k")}, absent, absent, absent, none, 0};
    begin(1, 1, fed);
    for (uint32_t i = 1; i <= n; i++) {
        done(palqytun_call(vm, &target, bytes("parameter"), bytes(""), false));
        completion(fed, 2 * i - 1, IS_INVOCATION_ID, "inv", 3);
        completion(fed, 2 * i, IS_VALUE, "result", 6);
    }
    if (n > 0)
        feed(fed);
    for (uint32_t i = 1; i <= 2 * n; i++)
        take(16 + i);
}

static void runs(uint32_t n, frames *fed)
{
    const palqytun_pair none[] = {{bytes(""), bytes("")}};
    const palqytun_value value = {false, 0, bytes("result"), none, 0};
    const palqytun_policy always = {0};
    begin(1, 1, fed);
    for (uint32_t i = 1; i <= n; i++) {
        uint32_t handle = done(palqytun_run(vm, bytes("charge"))).first;
        if (done(palqytun_await(vm, handle)).kind != PALQYTUN_EXECUTE_RUN)
            exit(1);
        done(palqytun_propose(vm, handle, &value, &always));
        acknowledgement(fed, i);
        feed(fed);
        take(handle);
    }
}

int main(int count, char **words)
{
    static const struct {
        const char *name;
        void (*play)(uint32_t, frames *);
    } cases[] = {{"sleeps", sleeps}, {"replay", replay}, {"signals", signals}, {"state", state}, {"calls", calls}, {"runs", runs}};
    frames fed = {0};
    for (size_t i = 0; count == 3 && i < sizeof cases / sizeof *cases; i++) {
        if (strcmp(words[1], cases[i].name) != 0)
            continue;
        cases[i].play((uint32_t)strtoul(words[2], NULL, 10), &fed);
        free(fed.at);
        palqytun_close(vm);
        return 0;
    }
    return 1;
}
