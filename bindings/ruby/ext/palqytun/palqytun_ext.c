/* The extension: handles, which end with their garbage if they weren't closed, large copies without the lock of Ruby, and the table of calls. */
#include "glue.h"

#include <ruby/thread.h>

static void let_go(void *data)
{
    struct handle *handle = data;
    if (handle->it != 0)
        handle->close(handle->it);
    xfree(handle);
}

static size_t size_of(const void *data)
{
    (void)data;
    return sizeof(struct handle);
}

const rb_data_type_t HANDLE = {"Palqytun's handle", {NULL, let_go, size_of, NULL, {NULL}}, NULL, NULL, RUBY_TYPED_FREE_IMMEDIATELY};

/* A handle, or the status if there is none. */
static VALUE opened(uint32_t (*open)(uintptr_t *), uint32_t (*close)(uintptr_t))
{
    struct lent lent = {0};
    struct handle *handle;
    VALUE made = TypedData_Make_Struct(rb_cObject, struct handle, &HANDLE, handle);
    handle->close = close;
    uint32_t status = open(&handle->it);
    return status == PALQYTUN_DONE ? made : give_status(&lent, status);
}

CALL(open)
{
    rb_check_arity(argc, 0, 0);
    return opened(pq_open, pq_close);
}

CALL(journal_open)
{
    rb_check_arity(argc, 0, 0);
    return opened(pq_journal_open, pq_journal_close);
}

/* Ends a handle, and gives its status. One that was closed stays closed. */
CALL(close)
{
    BEGIN(1);
    struct handle *handle = rb_check_typeddata(ARG(0), &HANDLE);
    uint32_t status = handle->close(handle->it);
    if (status != PALQYTUN_BUSY)
        handle->it = 0;
    return give_status(&lent, status);
}

/* ---- Large copies */

struct copy {
    uintptr_t vm;
    uint8_t *at;
    size_t len;
    bool is_made;
    uint32_t status;
    palqytun_told told;
};

static void *feed(void *data)
{
    struct copy *it = data;
    it->is_made = true;
    it->status = pq_feed(it->vm, it->at, it->len);
    return NULL;
}

static void *take(void *data)
{
    struct copy *it = data;
    it->is_made = true;
    it->status = pq_take_output(it->vm, it->at, it->len, &it->told);
    return NULL;
}

/* No other thread changes or frees the string meanwhile. An interrupt is raised before the copy, and never after it. */
static void copied(VALUE string, struct copy *it, void *(*copy)(void *))
{
    while (!it->is_made) {
        rb_str_locktmp(string);
        it->at = (uint8_t *)RSTRING_PTR(string);
        it->len = (size_t)RSTRING_LEN(string);
        rb_thread_call_without_gvl2(copy, it, NULL, NULL);
        rb_str_unlocktmp(string);
        if (!it->is_made)
            rb_thread_check_ints();
    }
}

CALL(feed_large)
{
    BEGIN(2);
    struct copy it = {.vm = read_handle(&lent, ARG(0))};
    Check_Type(ARG(1), T_STRING);
    copied(ARG(1), &it, feed);
    return give_status(&lent, it.status);
}

CALL(take_output_large)
{
    BEGIN(2);
    struct copy it = {.vm = read_handle(&lent, ARG(0))};
    VALUE made = rb_str_new(NULL, NUM2LONG(ARG(1)));
    copied(made, &it, take);
    if (it.status != PALQYTUN_DONE)
        return give_status(&lent, it.status);
    return rb_str_resize(made, (long)it.told.len);
}

/* ---- The library */

/* Loads the library, and gives what is wrong with it, or nil. */
CALL(load)
{
    char said[4096] = "";
    rb_check_arity(argc, 0, 0);
    return pq_load(NULL, said, sizeof said) ? Qnil : rb_utf8_str_new_cstr(said);
}

CALL(version)
{
    rb_check_arity(argc, 0, 0);
    return rb_utf8_str_new_cstr(pq_version());
}

CALL(build)
{
    rb_check_arity(argc, 0, 0);
    return rb_utf8_str_new_cstr(pq_build());
}

CALL(is_proved)
{
    rb_check_arity(argc, 0, 0);
    return pq_is_proved() ? Qtrue : Qfalse;
}

static const struct made OWN[] = {
    MAKES(open) MAKES(journal_open) MAKES(close) MAKES(feed_large) MAKES(take_output_large) MAKES(load) MAKES(version) MAKES(build) MAKES(is_proved) {0},
};

void Init_palqytun_ext(void)
{
    VALUE module = rb_define_module_under(rb_define_module("Palqytun"), "Ext");
    for (const struct made *it = OWN; it->name != NULL; it++)
        rb_define_module_function(module, it->name, it->call, -1);
    for (const struct made *it = CALLS; it->name != NULL; it++)
        rb_define_module_function(module, it->name, it->call, -1);
}
