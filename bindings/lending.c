/* What C lends for a call, as the proved calls take it: a pointer that may be NULL is one to nothing, and a flag is 0 or 1. What can't be
   meant is refused. */
#include "handles.h"

#include <stdlib.h>
#include <string.h>

/* What a pointer without bytes points to. It is never written. */
static union {
    uint8_t bytes[8];
    palqytun_pair pair;
    palqytun_node node;
} nothing;

/* Whether this many items of this size can be at a place. */
static bool may_be(const void *at, size_t len, size_t size)
{
    return len == 0 || (at != NULL && len <= PTRDIFF_MAX / size);
}

const void *lend_items(uint32_t *status, const void *at, size_t len, size_t size)
{
    if (*status == PALQYTUN_DONE && !may_be(at, len, size))
        *status = PALQYTUN_BAD_POINTER;
    return len == 0 ? &nothing : at;
}

uint8_t *lend_room(uint32_t *status, uint8_t *at, size_t len)
{
    if (*status == PALQYTUN_DONE && !may_be(at, len, 1))
        *status = PALQYTUN_BAD_POINTER;
    return len == 0 ? nothing.bytes : at;
}

void lend_bytes(uint32_t *status, palqytun_bytes *bytes)
{
    bytes->at = lend_items(status, bytes->at, bytes->len, 1);
}

void lend_out(uint32_t *status, palqytun_bytes *out)
{
    if (out != NULL)
        *out = (palqytun_bytes){NULL, 0};
    else if (*status == PALQYTUN_DONE)
        *status = PALQYTUN_BAD_POINTER;
}

/* A flag, which is given as any byte. */
static bool flag(const bool *given)
{
    uint8_t byte;
    memcpy(&byte, given, 1);
    return byte != 0;
}

void lend_optional(uint32_t *status, palqytun_optional *optional)
{
    if (!(optional->is_given = flag(&optional->is_given)))
        optional->bytes = (palqytun_bytes){nothing.bytes, 0};
    lend_bytes(status, &optional->bytes);
}

/* Whether a struct is given. */
static bool is_given(uint32_t *status, const void *given)
{
    if (*status == PALQYTUN_DONE && given == NULL)
        *status = PALQYTUN_BAD_POINTER;
    return *status == PALQYTUN_DONE;
}

/* An array of pairs. It is copied only if one of its pointers is NULL. */
static void lend_pairs(uint32_t *status, const palqytun_pair **pairs, size_t len, lent_arrays *arrays)
{
    *pairs = lend_items(status, *pairs, len, sizeof **pairs);
    bool has_null = false;
    for (size_t i = 0; i < len && *status == PALQYTUN_DONE; i++) {
        palqytun_pair pair = (*pairs)[i];
        has_null = has_null || pair.key.at == NULL || pair.value.at == NULL;
        lend_bytes(status, &pair.key);
        lend_bytes(status, &pair.value);
    }
    if (*status != PALQYTUN_DONE || !has_null)
        return;
    palqytun_pair *copy = malloc(len * sizeof *copy);
    if (copy == NULL) {
        *status = PALQYTUN_NO_MEMORY;
        return;
    }
    for (size_t i = 0; i < len; i++) {
        copy[i] = (*pairs)[i];
        lend_bytes(status, &copy[i].key);
        lend_bytes(status, &copy[i].value);
    }
    arrays->arrays[arrays->count++] = copy;
    *pairs = copy;
}

void lend_end(lent_arrays *arrays)
{
    while (arrays->count > 0)
        free(arrays->arrays[--arrays->count]);
}

void lend_value(uint32_t *status, const palqytun_value *given, palqytun_value *lent, lent_arrays *arrays)
{
    if (!is_given(status, given))
        return;
    *lent = *given;
    lent->is_failure = flag(&given->is_failure);
    lend_bytes(status, &lent->bytes);
    lend_pairs(status, &lent->metadata, lent->metadata_len, arrays);
}

void lend_target(uint32_t *status, const palqytun_target *given, palqytun_target *lent, lent_arrays *arrays)
{
    if (!is_given(status, given))
        return;
    *lent = *given;
    lend_bytes(status, &lent->service);
    lend_bytes(status, &lent->handler);
    lend_optional(status, &lent->key);
    lend_optional(status, &lent->idempotency_key);
    lend_optional(status, &lent->scope);
    lend_optional(status, &lent->limit_key);
    lend_pairs(status, &lent->headers, lent->headers_len, arrays);
}

void lend_error(uint32_t *status, const palqytun_error *given, palqytun_error *lent)
{
    if (!is_given(status, given))
        return;
    *lent = *given;
    lent->has_delay = flag(&given->has_delay);
    lend_bytes(status, &lent->message);
    lend_bytes(status, &lent->stacktrace);
}

void lend_invocation(uint32_t *status, const palqytun_invocation *given, palqytun_invocation *lent)
{
    if (!is_given(status, given))
        return;
    *lent = *given;
    lend_bytes(status, &lent->name);
    lend_bytes(status, &lent->key);
    lend_bytes(status, &lent->handler);
    lend_optional(status, &lent->service_key);
    lend_optional(status, &lent->scope);
}

void lend_command(uint32_t *status, const palqytun_command *given, palqytun_command *lent)
{
    *lent = given != NULL ? *given : (palqytun_command){0};
    lend_optional(status, &lent->name);
}

void lend_options(uint32_t *status, const palqytun_options *given, palqytun_options *lent)
{
    (void)status;
    *lent = given != NULL ? *given : (palqytun_options){0};
}

void lend_policy(uint32_t *status, const palqytun_policy *given, palqytun_policy *lent)
{
    (void)status;
    *lent = given != NULL ? *given : (palqytun_policy){0};
    lent->has_interval = flag(&lent->has_interval);
    lent->has_attempts = flag(&lent->has_attempts);
    lent->has_duration = flag(&lent->has_duration);
    lent->pauses = flag(&lent->pauses);
}
