/* The addon: handles, which end with their garbage if they weren't closed, and the table of calls. */
#include "glue.h"

/* Ends a handle that is garbage, or whose instance ends. */
static void let_go(uintptr_t *it, uint32_t (*close)(uintptr_t))
{
    if (*it != 0)
        close(*it);
    free(it);
}

static void let_vm_go(napi_env env, void *data, void *hint)
{
    (void)env;
    (void)hint;
    let_go(data, pq_close);
}

static void let_journal_go(napi_env env, void *data, void *hint)
{
    (void)env;
    (void)hint;
    let_go(data, pq_journal_close);
}

/* A handle, or the status if there is none. */
static napi_value opened(napi_env env, uint32_t (*open)(uintptr_t *), uint32_t (*close)(uintptr_t), napi_finalize finalize)
{
    struct lent lent = {.env = env};
    napi_value made = NULL;
    uintptr_t *it = calloc(1, sizeof *it);
    uint32_t status = it ? open(it) : PALQYTUN_NO_MEMORY;
    if (status == PALQYTUN_DONE && napi_create_external(env, it, finalize, NULL, &made) == napi_ok)
        return made;
    if (it != NULL)
        let_go(it, close);
    return give_status(&lent, status == PALQYTUN_DONE ? PALQYTUN_NO_MEMORY : status);
}

CALL(open)
{
    (void)info;
    return opened(env, pq_open, pq_close, let_vm_go);
}

CALL(journal_open)
{
    (void)info;
    return opened(env, pq_journal_open, pq_journal_close, let_journal_go);
}

/* Ends a handle, and gives its status. One that was closed stays closed. */
static napi_value closed(napi_env env, napi_callback_info info, uint32_t (*close)(uintptr_t))
{
    void *found = NULL;
    BEGIN(1);
    read_handle(&lent, ARG(0));
    if (!is_read(&lent) || napi_get_value_external(env, ARG(0), &found) != napi_ok)
        return give_status(&lent, 0);
    uint32_t status = close(*(uintptr_t *)found);
    if (status != PALQYTUN_BUSY)
        *(uintptr_t *)found = 0;
    return give_status(&lent, status);
}

CALL(close)
{
    return closed(env, info, pq_close);
}

CALL(journal_close)
{
    return closed(env, info, pq_journal_close);
}

/* Loads the library, and gives what is wrong with it, or null. */
CALL(load)
{
    char said[4096] = "";
    napi_value made = NULL;
    (void)info;
    bool is_well = pq_load(NULL, said, sizeof said);
    napi_status status = is_well ? napi_get_null(env, &made) : napi_create_string_utf8(env, said, NAPI_AUTO_LENGTH, &made);
    return status == napi_ok ? made : NULL;
}

static napi_value text(napi_env env, const char *of)
{
    napi_value made = NULL;
    return napi_create_string_utf8(env, of, NAPI_AUTO_LENGTH, &made) == napi_ok ? made : NULL;
}

CALL(version)
{
    (void)info;
    return text(env, pq_version());
}

CALL(build)
{
    (void)info;
    return text(env, pq_build());
}

CALL(is_proved)
{
    napi_value made = NULL;
    (void)info;
    return napi_get_boolean(env, pq_is_proved(), &made) == napi_ok ? made : NULL;
}

static const struct made OWN[] = {
    MAKES(open) MAKES(close) MAKES(journal_open) MAKES(journal_close) MAKES(load) MAKES(version) MAKES(build) MAKES(is_proved) {0},
};

static bool add(napi_env env, napi_value exports, const struct made *calls)
{
    for (; calls->name != NULL; calls++) {
        napi_value made = NULL;
        if (napi_create_function(env, calls->name, NAPI_AUTO_LENGTH, calls->call, NULL, &made) != napi_ok
            || napi_set_named_property(env, exports, calls->name, made) != napi_ok)
            return false;
    }
    return true;
}

static void end_instance(napi_env env, void *data, void *hint)
{
    (void)env;
    (void)hint;
    free(data);
}

/* The reply, as a Uint32Array that JavaScript keeps. */
static bool add_reply(napi_env env, napi_value exports)
{
    struct instance *instance = calloc(1, sizeof *instance);
    napi_value buffer = NULL, made = NULL;
    void *data = NULL;
    if (instance == NULL || napi_set_instance_data(env, instance, end_instance, NULL) != napi_ok) {
        free(instance);
        return false;
    }
    if (napi_create_arraybuffer(env, REPLY * sizeof(uint32_t), &data, &buffer) != napi_ok
        || napi_create_typedarray(env, napi_uint32_array, REPLY, buffer, 0, &made) != napi_ok)
        return false;
    instance->reply = data;
    return napi_set_named_property(env, exports, "reply", made) == napi_ok;
}

NAPI_MODULE_INIT()
{
    if (!add_reply(env, exports) || !add(env, exports, OWN) || !add(env, exports, CALLS))
        napi_throw_error(env, NULL, "the addon of palqytun can't be made");
    return exports;
}
