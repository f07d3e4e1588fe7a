/* How values of Ruby are read and made. */
#include "glue.h"

bool is_read(const struct lent *lent)
{
    return true;
}

VALUE field(struct lent *lent, VALUE of, const char *name)
{
    Check_Type(of, T_HASH);
    return rb_hash_aref(of, ID2SYM(rb_intern(name)));
}

/* ---- Arguments */

uintptr_t read_handle(struct lent *lent, VALUE it)
{
    return ((struct handle *)rb_check_typeddata(it, &HANDLE))->it;
}

palqytun_bytes read_bytes(struct lent *lent, VALUE it)
{
    Check_Type(it, T_STRING);
    return (palqytun_bytes){(const uint8_t *)RSTRING_PTR(it), (size_t)RSTRING_LEN(it)};
}

palqytun_optional read_optional(struct lent *lent, VALUE it)
{
    palqytun_optional none = {false, {NULL, 0}};
    return NIL_P(it) ? none : (palqytun_optional){true, read_bytes(lent, it)};
}

palqytun_bytes read_lent(struct lent *lent, VALUE it)
{
    return read_optional(lent, it).bytes;
}

const palqytun_pair *read_pairs(struct lent *lent, VALUE it, size_t *len)
{
    Check_Type(it, T_ARRAY);
    long count = RARRAY_LEN(it);
    if (count == 0)
        return NULL;
    if (lent->kept_len == MOST_KEPT)
        rb_raise(rb_eArgError, "too many lists of pairs");
    VALUE block = lent->kept[lent->kept_len++] = rb_str_tmp_new(count * (long)sizeof(palqytun_pair));
    palqytun_pair *made = (palqytun_pair *)(void *)RSTRING_PTR(block);
    for (long at = 0; at < count; at++) {
        VALUE pair = rb_ary_entry(it, at);
        Check_Type(pair, T_ARRAY);
        made[at].key = read_bytes(lent, rb_ary_entry(pair, 0));
        made[at].value = read_bytes(lent, rb_ary_entry(pair, 1));
    }
    *len = (size_t)count;
    return made;
}

const palqytun_node *read_nodes(struct lent *lent, VALUE it, size_t *len)
{
    Check_Type(it, T_STRING);
    *len = (size_t)RSTRING_LEN(it) / sizeof(palqytun_node);
    return (const palqytun_node *)(const void *)RSTRING_PTR(it);
}

bool read_bool(struct lent *lent, VALUE it)
{
    return RTEST(it);
}

static uint64_t whole(VALUE it, uint64_t most)
{
    if (!RB_INTEGER_TYPE_P(it))
        rb_raise(rb_eTypeError, "an Integer was expected");
    if (RTEST(rb_funcall(it, '<', 1, INT2FIX(0))) || RTEST(rb_funcall(it, '>', 1, ULL2NUM(most))))
        rb_raise(rb_eRangeError, "a number is out of its bounds");
    return NUM2ULL(it);
}

uint16_t read_u16(struct lent *lent, VALUE it)
{
    return (uint16_t)whole(it, UINT16_MAX);
}

uint32_t read_u32(struct lent *lent, VALUE it)
{
    return (uint32_t)whole(it, UINT32_MAX);
}

uint64_t read_u64(struct lent *lent, VALUE it)
{
    return whole(it, UINT64_MAX);
}

size_t read_size(struct lent *lent, VALUE it)
{
    return (size_t)whole(it, SIZE_MAX);
}

/* ---- What is given back */

uint8_t *out_at(struct out *out)
{
    return out->more ? out->more : out->room;
}

size_t out_len(const struct out *out)
{
    return out->more ? out->more_len : sizeof out->room;
}

bool is_short(struct out *out)
{
    if (out->told.status != PALQYTUN_NO_ROOM)
        return false;
    free(out->more);
    out->more_len = out->told.len;
    out->more = malloc(out->more_len);
    if (out->more == NULL)
        out->told.status = PALQYTUN_NO_MEMORY;
    return out->more != NULL;
}

VALUE give_status(struct lent *lent, uint32_t status)
{
    return UINT2NUM(status);
}

VALUE give_replied(struct lent *lent, const palqytun_replied *it)
{
    const VALUE numbers[] = {UINT2NUM(it->status), UINT2NUM(it->kind), UINT2NUM(it->first), UINT2NUM(it->second), UINT2NUM(it->third),
        ULL2NUM(it->number), SIZET2NUM(it->rows)};
    return rb_ary_new_from_values(sizeof numbers / sizeof *numbers, numbers);
}

VALUE give_bytes(struct lent *lent, struct out *out)
{
    if (out->told.status != PALQYTUN_DONE) {
        free(out->more);
        return give_status(lent, out->told.status);
    }
    VALUE made = rb_str_new((const char *)out_at(out), (long)out->told.len);
    free(out->more);
    return made;
}

VALUE give_row(struct lent *lent, const char *const names[], const uint64_t values[], size_t count)
{
    VALUE made = rb_hash_new();
    for (size_t at = 0; at < count; at++)
        rb_hash_aset(made, ID2SYM(rb_intern(names[at])), ULL2NUM(values[at]));
    return made;
}
