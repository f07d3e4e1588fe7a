/* How values of JavaScript are read and made. */
#include "glue.h"

static void bad(struct lent *lent, const char *what)
{
    bool is_pending = false;
    lent->is_bad = true;
    if (napi_is_exception_pending(lent->env, &is_pending) == napi_ok && !is_pending)
        napi_throw_type_error(lent->env, NULL, what);
}

/* A block of the heap that ends with the call, or NULL. */
static void *lend(struct lent *lent, size_t len)
{
    if (lent->blocks_len == lent->blocks_room) {
        size_t room = 2 * lent->blocks_room + 8;
        void **more = realloc(lent->blocks, room * sizeof *more);
        if (more == NULL) {
            bad(lent, "no memory for an argument");
            return NULL;
        }
        lent->blocks = more;
        lent->blocks_room = room;
    }
    void *made = malloc(len ? len : 1);
    if (made == NULL)
        bad(lent, "no memory for an argument");
    else
        lent->blocks[lent->blocks_len++] = made;
    return made;
}

static void end(struct lent *lent)
{
    for (size_t at = 0; at < lent->blocks_len; at++)
        free(lent->blocks[at]);
    free(lent->blocks);
}

void begin(struct lent *lent, napi_callback_info info, size_t count)
{
    size_t given = MOST_ARGUMENTS;
    if (napi_get_cb_info(lent->env, info, &given, lent->args, NULL, NULL) != napi_ok || given < count)
        bad(lent, "too few arguments");
}

bool is_read(const struct lent *lent)
{
    return !lent->is_bad;
}

static napi_valuetype type_of(struct lent *lent, napi_value it)
{
    napi_valuetype type = napi_undefined;
    if (it == NULL || napi_typeof(lent->env, it, &type) != napi_ok)
        lent->is_bad = true;
    return type;
}

napi_value field(struct lent *lent, napi_value of, const char *name)
{
    napi_value found = NULL;
    if (!is_read(lent))
        return NULL;
    if (type_of(lent, of) != napi_object || napi_get_named_property(lent->env, of, name, &found) != napi_ok)
        bad(lent, "an object was expected");
    return found;
}

/* ---- Arguments */

uintptr_t read_handle(struct lent *lent, napi_value it)
{
    void *found = NULL;
    if (!is_read(lent))
        return 0;
    if (type_of(lent, it) != napi_external || napi_get_value_external(lent->env, it, &found) != napi_ok || found == NULL) {
        bad(lent, "a handle was expected");
        return 0;
    }
    return *(uintptr_t *)found;
}

static palqytun_bytes bytes_of_text(struct lent *lent, napi_value it)
{
    size_t len = 0;
    uint8_t *made = NULL;
    if (napi_get_value_string_utf8(lent->env, it, NULL, 0, &len) == napi_ok && (made = lend(lent, len + 1)) != NULL)
        napi_get_value_string_utf8(lent->env, it, (char *)made, len + 1, &len);
    return (palqytun_bytes){made, made ? len : 0};
}

palqytun_bytes read_bytes(struct lent *lent, napi_value it)
{
    napi_typedarray_type type = napi_int8_array;
    size_t len = 0;
    void *data = NULL;
    bool is_array = false;
    if (!is_read(lent))
        return (palqytun_bytes){NULL, 0};
    if (type_of(lent, it) == napi_string)
        return bytes_of_text(lent, it);
    if (napi_is_typedarray(lent->env, it, &is_array) != napi_ok || !is_array
        || napi_get_typedarray_info(lent->env, it, &type, &len, &data, NULL, NULL) != napi_ok || type != napi_uint8_array) {
        bad(lent, "a string or a Uint8Array was expected");
        return (palqytun_bytes){NULL, 0};
    }
    return (palqytun_bytes){len ? data : NULL, len};
}

static bool is_absent(struct lent *lent, napi_value it)
{
    napi_valuetype type = is_read(lent) ? type_of(lent, it) : napi_undefined;
    return type == napi_undefined || type == napi_null;
}

palqytun_optional read_optional(struct lent *lent, napi_value it)
{
    palqytun_optional none = {false, {NULL, 0}};
    return is_absent(lent, it) ? none : (palqytun_optional){true, read_bytes(lent, it)};
}

palqytun_bytes read_lent(struct lent *lent, napi_value it)
{
    return read_optional(lent, it).bytes;
}

static napi_value element(struct lent *lent, napi_value of, uint32_t at)
{
    napi_value found = NULL;
    if (is_read(lent) && napi_get_element(lent->env, of, at, &found) != napi_ok)
        bad(lent, "an array was expected");
    return found;
}

const palqytun_pair *read_pairs(struct lent *lent, napi_value it, size_t *len)
{
    uint32_t count = 0;
    bool is_array = false;
    if (!is_read(lent))
        return NULL;
    if (napi_is_array(lent->env, it, &is_array) != napi_ok || !is_array || napi_get_array_length(lent->env, it, &count) != napi_ok) {
        bad(lent, "an array of pairs was expected");
        return NULL;
    }
    palqytun_pair *made = lend(lent, count * sizeof *made);
    for (uint32_t at = 0; made != NULL && at < count; at++) {
        napi_value pair = element(lent, it, at);
        made[at].key = read_bytes(lent, element(lent, pair, 0));
        made[at].value = read_bytes(lent, element(lent, pair, 1));
    }
    *len = made ? count : 0;
    return made;
}

const palqytun_node *read_nodes(struct lent *lent, napi_value it, size_t *len)
{
    napi_typedarray_type type = napi_int8_array;
    size_t count = 0;
    void *data = NULL;
    bool is_array = false;
    if (!is_read(lent))
        return NULL;
    if (napi_is_typedarray(lent->env, it, &is_array) != napi_ok || !is_array
        || napi_get_typedarray_info(lent->env, it, &type, &count, &data, NULL, NULL) != napi_ok || type != napi_uint32_array || count % 2 != 0) {
        bad(lent, "a Uint32Array of kinds and numbers was expected");
        return NULL;
    }
    *len = count / 2;
    return data;
}

bool read_bool(struct lent *lent, napi_value it)
{
    bool found = false;
    if (is_read(lent) && napi_get_value_bool(lent->env, it, &found) != napi_ok)
        bad(lent, "a boolean was expected");
    return found;
}

static uint64_t whole(struct lent *lent, napi_value it, uint64_t most)
{
    double found = 0;
    if (!is_read(lent))
        return 0;
    if (napi_get_value_double(lent->env, it, &found) != napi_ok || !(found >= 0 && found <= (double)most) || found != (double)(uint64_t)found) {
        bad(lent, "a whole number within its bounds was expected");
        return 0;
    }
    return (uint64_t)found;
}

uint16_t read_u16(struct lent *lent, napi_value it)
{
    return (uint16_t)whole(lent, it, UINT16_MAX);
}

uint32_t read_u32(struct lent *lent, napi_value it)
{
    return (uint32_t)whole(lent, it, UINT32_MAX);
}

size_t read_size(struct lent *lent, napi_value it)
{
    return (size_t)whole(lent, it, UINT32_MAX);
}

uint64_t read_u64(struct lent *lent, napi_value it)
{
    uint64_t found = 0;
    bool is_whole = false;
    if (is_read(lent) && (napi_get_value_bigint_uint64(lent->env, it, &found, &is_whole) != napi_ok || !is_whole))
        bad(lent, "a bigint of 64 bits was expected");
    return found;
}

/* ---- What is given back */

uint8_t *out_at(struct out *out)
{
    return out->more ? out->more : out->room;
}

size_t out_len(const struct out *out)
{
    return out->more ? out->more_len : sizeof out->room;
}

bool is_short(struct out *out)
{
    if (out->told.status != PALQYTUN_NO_ROOM)
        return false;
    free(out->more);
    out->more_len = out->told.len;
    out->more = malloc(out->more_len);
    if (out->more == NULL)
        out->told.status = PALQYTUN_NO_MEMORY;
    return out->more != NULL;
}

static napi_value number(napi_env env, uint64_t it)
{
    napi_value made = NULL;
    napi_status status = it <= (UINT64_C(1) << 53) ? napi_create_double(env, (double)it, &made) : napi_create_bigint_uint64(env, it, &made);
    return status == napi_ok ? made : NULL;
}

napi_value give_status(struct lent *lent, uint32_t status)
{
    end(lent);
    return is_read(lent) ? number(lent->env, status) : NULL;
}

napi_value give_replied(struct lent *lent, const palqytun_replied *it)
{
    void *found = NULL;
    if (napi_get_instance_data(lent->env, &found) == napi_ok && found != NULL) {
        uint32_t *reply = ((struct instance *)found)->reply;
        const uint32_t numbers[REPLY] = {
            it->status, it->kind, it->first, it->second, it->third, (uint32_t)it->number, (uint32_t)(it->number >> 32), (uint32_t)it->rows};
        memcpy(reply, numbers, sizeof numbers);
    }
    return give_status(lent, it->status);
}

napi_value give_bytes(struct lent *lent, struct out *out)
{
    napi_value made = NULL;
    if (!is_read(lent) || out->told.status != PALQYTUN_DONE)
        made = give_status(lent, out->told.status);
    else {
        end(lent);
        if (napi_create_buffer_copy(lent->env, out->told.len, out_at(out), NULL, &made) != napi_ok)
            made = NULL;
    }
    free(out->more);
    return made;
}

napi_value give_row(struct lent *lent, const char *const names[], const uint64_t values[], size_t count)
{
    napi_value made = NULL;
    end(lent);
    if (!is_read(lent) || napi_create_object(lent->env, &made) != napi_ok)
        return NULL;
    for (size_t at = 0; at < count; at++)
        if (napi_set_named_property(lent->env, made, names[at], number(lent->env, values[at])) != napi_ok)
            return NULL;
    return made;
}
