/* The class below palqytun.core.VM: the calls that an attempt makes most, from their arguments to their results.

   A call is made here if its arguments are as plain as can be: an `int`, a `str`, `bytes`, a `bool`, None. All others are left to the method in
   Python of the same name, so what is wrong with an argument is said there alone. So is what a call is refused by. */
#include "glue.h"

enum { MOST_PARAMETERS = 10 };

typedef struct {
    PyObject_HEAD
    uintptr_t vm;
    PyObject *session;
    /* What was fed, to say in what a call differs from a recorded one: a list until the handler begins, then a tuple. NULL once nothing is
       replayed any more. */
    PyObject *fed;
} vm_object;

/* A method: its parameters, of which so many may be given by place, and so many have to be given; and the method in Python. */
struct method {
    const char *name;
    Py_ssize_t count, by_place, needed;
    const char *parameters[MOST_PARAMETERS];
    PyObject *interned[MOST_PARAMETERS];
    PyObject *behind;
};

/* A call of a method, with the value of each parameter, or NULL. */
struct call {
    PyObject *self;
    const struct method *method;
    PyObject *const *args;
    Py_ssize_t args_len;
    PyObject *names;
    PyObject *values[MOST_PARAMETERS];
};

/* What calls return that is neither a number nor bytes: VOID, each Waiting, the states by their numbers, and the class Run. */
static PyObject *void_result, *waits, *states, *run_class;

/* ---- Arguments */

/* Which parameter a keyword names; the count if none. */
static Py_ssize_t place_of(const struct method *it, PyObject *name)
{
    Py_ssize_t at = 0;
    while (at < it->count && it->interned[at] != name)
        at++;
    return at;
}

/* Gives each parameter its value, and tells whether that could be done, and there is a session. */
static bool bind(struct call *call)
{
    const struct method *it = call->method;
    Py_ssize_t names = call->names ? PyTuple_Size(call->names) : 0;
    if (call->args_len > it->by_place || ((vm_object *)call->self)->session == NULL)
        return false;
    for (Py_ssize_t at = 0; at < it->count; at++)
        call->values[at] = at < call->args_len ? call->args[at] : NULL;
    for (Py_ssize_t at = 0; at < names; at++) {
        Py_ssize_t place = place_of(it, PyTuple_GetItem(call->names, at));
        if (place == it->count || call->values[place] != NULL)
            return false;
        call->values[place] = call->args[call->args_len + at];
    }
    for (Py_ssize_t at = 0; at < it->needed; at++)
        if (call->values[at] == NULL)
            return false;
    return true;
}

/* The VM, and the arguments that were given by place. */
static PyObject *placed(const struct call *call)
{
    PyObject *made = PyTuple_New(call->args_len + 1);
    if (made == NULL)
        return NULL;
    PyTuple_SetItem(made, 0, Py_NewRef(call->self));
    for (Py_ssize_t at = 0; at < call->args_len; at++)
        PyTuple_SetItem(made, at + 1, Py_NewRef(call->args[at]));
    return made;
}

/* The arguments that were given by name. */
static PyObject *named(const struct call *call)
{
    PyObject *made = PyDict_New();
    Py_ssize_t count = call->names ? PyTuple_Size(call->names) : 0;
    for (Py_ssize_t at = 0; made != NULL && at < count; at++)
        if (PyDict_SetItem(made, PyTuple_GetItem(call->names, at), call->args[call->args_len + at]) != 0)
            Py_CLEAR(made);
    return made;
}

/* What the method in Python makes of a call that was not made here. */
static PyObject *leave(const struct call *call)
{
    PyErr_Clear();
    PyObject *args = placed(call), *names = args ? named(call) : NULL;
    PyObject *result = names ? PyObject_Call(call->method->behind, args, names) : NULL;
    Py_XDECREF(args);
    Py_XDECREF(names);
    return result;
}

static bool is_number(PyObject *it, uint64_t *to)
{
    if (!Py_IS_TYPE(it, &PyLong_Type))
        return false;
    *to = PyLong_AsUnsignedLongLong(it);
    return *to != UINT64_MAX || PyErr_Occurred() == NULL;
}

static bool is_handle(PyObject *it, uint32_t *to)
{
    uint64_t number = 0;
    bool is_one = is_number(it, &number) && number <= UINT32_MAX;
    *to = (uint32_t)number;
    return is_one;
}

static bool is_text(PyObject *it, palqytun_bytes *to)
{
    Py_ssize_t len = 0;
    const char *at = Py_IS_TYPE(it, &PyUnicode_Type) ? PyUnicode_AsUTF8AndSize(it, &len) : NULL;
    *to = (palqytun_bytes){(const uint8_t *)at, (size_t)len};
    return at != NULL;
}

/* A name, or none. */
static bool is_name(PyObject *it, palqytun_bytes *to)
{
    *to = (palqytun_bytes){NULL, 0};
    return it == NULL || it == Py_None || is_text(it, to);
}

static bool is_optional(PyObject *it, palqytun_optional *to)
{
    to->is_given = it != NULL && it != Py_None;
    return !to->is_given || is_text(it, &to->bytes);
}

static bool is_bytes(PyObject *it, palqytun_bytes *to)
{
    char *at = NULL;
    Py_ssize_t len = 0;
    bool is_one = Py_IS_TYPE(it, &PyBytes_Type) && PyBytes_AsStringAndSize(it, &at, &len) == 0;
    *to = (palqytun_bytes){(const uint8_t *)at, (size_t)len};
    return is_one;
}

static bool is_flag(PyObject *it, bool *to)
{
    *to = it == Py_True;
    return it == NULL || it == Py_True || it == Py_False;
}

/* ---- Results */

/* What a method in Python makes of a reply. */
static PyObject *passed_on(PyObject *self, const char *method, const palqytun_replied *it)
{
    PyObject *replied = replied_of(it);
    PyObject *name = replied ? PyUnicode_FromString(method) : NULL;
    PyObject *result = name ? PyObject_CallMethodObjArgs(self, name, replied, NULL) : NULL;
    Py_XDECREF(name);
    Py_XDECREF(replied);
    return result;
}

/* Raises what a reply says that isn't done. The call goes with it, since it may be made again on another VM. */
static PyObject *refused(const struct call *call, const palqytun_replied *it)
{
    PyObject *replied = replied_of(it), *args = replied ? placed(call) : NULL, *names = args ? named(call) : NULL;
    PyObject *check = names ? PyUnicode_FromString("_check_method") : NULL;
    PyObject *result = check ? PyObject_CallMethodObjArgs(call->self, check, replied, call->method->behind, args, names, NULL) : NULL;
    if (result != NULL)
        PyErr_Format(PyExc_SystemError, "the status %u raised nothing", (unsigned)it->status);
    Py_XDECREF(result);
    Py_XDECREF(check);
    Py_XDECREF(names);
    Py_XDECREF(args);
    Py_XDECREF(replied);
    return NULL;
}

static PyObject *first_of(const struct call *call, const palqytun_replied *it)
{
    return it->status == PALQYTUN_DONE ? PyLong_FromUnsignedLong(it->first) : refused(call, it);
}

static PyObject *flag_of(const struct call *call, const palqytun_replied *it)
{
    return it->status == PALQYTUN_DONE ? PyBool_FromLong(it->first == 1) : refused(call, it);
}

static PyObject *none_of(const struct call *call, const palqytun_replied *it)
{
    return it->status == PALQYTUN_DONE ? Py_NewRef(Py_None) : refused(call, it);
}

/* The first part of a reply, which has so many bytes. */
static PyObject *part_of(uintptr_t vm, size_t len)
{
    palqytun_told told = {0};
    PyObject *part = PyBytes_FromStringAndSize(NULL, (Py_ssize_t)len);
    if (part == NULL)
        return NULL;
    uint8_t *at = (uint8_t *)PyBytes_AsString(part);
    UNLOCKED(len, pq_part(vm, 0, at, len, &told));
    if (told.status == PALQYTUN_DONE && told.len == len)
        return part;
    Py_DECREF(part);
    return PyErr_Format(PyExc_RuntimeError, "another thread's call of this VM came between; let a lock guard it");
}

/* ---- Methods */

#define GIVEN PyObject *self, PyObject *const *args, Py_ssize_t args_len, PyObject *names
#define BEGIN_METHOD(NAME) \
    struct call call = {.self = self, .method = &NAME##_method, .args = args, .args_len = args_len, .names = names}; \
    PyObject *const *given = call.values; \
    palqytun_replied replied = {0}; \
    const uintptr_t vm = ((vm_object *)self)->vm; \
    (void)given; \
    (void)vm
#define OTHERWISE_LEAVE(IS_PLAIN) \
    if (!bind(&call) || !(IS_PLAIN)) \
    return leave(&call)

static struct method state_method = {"state", 0, 0, 0, {NULL}, {NULL}, NULL};
static PyObject *state(GIVEN)
{
    BEGIN_METHOD(state);
    OTHERWISE_LEAVE(true);
    pq_state(vm, &replied);
    return replied.status == PALQYTUN_DONE ? Py_XNewRef(PyTuple_GetItem(states, replied.first)) : refused(&call, &replied);
}

static struct method is_ready_method = {"is_ready_to_execute", 0, 0, 0, {NULL}, {NULL}, NULL};
static PyObject *is_ready(GIVEN)
{
    BEGIN_METHOD(is_ready);
    OTHERWISE_LEAVE(true);
    pq_is_ready(vm, &replied);
    return flag_of(&call, &replied);
}

static struct method last_command_index_method = {"last_command_index", 0, 0, 0, {NULL}, {NULL}, NULL};
static PyObject *last_command_index(GIVEN)
{
    BEGIN_METHOD(last_command_index);
    OTHERWISE_LEAVE(true);
    pq_last_command_index(vm, &replied);
    if (replied.status != PALQYTUN_DONE)
        return refused(&call, &replied);
    return replied.kind == PALQYTUN_INDEX ? PyLong_FromUnsignedLongLong(replied.number) : PyLong_FromLong(-1);
}

/* Keeps what was fed, until the handler begins. If there is no memory for that, an error says less. */
static void keep_fed(vm_object *it, PyObject *data)
{
    if (it->fed != NULL && PyList_Check(it->fed) && PyList_Append(it->fed, data) != 0) {
        PyErr_Clear();
        Py_CLEAR(it->fed);
    }
}

static struct method notify_input_method = {"notify_input", 1, 1, 1, {"data"}, {NULL}, NULL};
static PyObject *notify_input(GIVEN)
{
    BEGIN_METHOD(notify_input);
    palqytun_bytes data;
    OTHERWISE_LEAVE(is_bytes(given[0], &data));
    UNLOCKED(data.len, replied.status = pq_feed(vm, data.at, data.len));
    if (replied.status == PALQYTUN_DONE)
        keep_fed((vm_object *)self, given[0]);
    return none_of(&call, &replied);
}

static struct method take_output_method = {"take_output", 0, 0, 0, {NULL}, {NULL}, NULL};
static PyObject *take_output(GIVEN)
{
    BEGIN_METHOD(take_output);
    OTHERWISE_LEAVE(true);
    if (((handle *)((vm_object *)self)->session)->is_unread)
        return PyErr_NoMemory(); /* what was lent comes first */
    struct out out;
    out.more = NULL;
    do
        UNLOCKED(out_len(&out), pq_take_output(vm, out_at(&out), out_len(&out), &out.told));
    while (is_short(&out));
    bool has_no_memory = out.told.status == PALQYTUN_NO_ROOM; /* for as many bytes, which is raised */
    PyObject *output = out.told.status == PALQYTUN_DONE ? bytes_of(&out) : NULL;
    if (output != NULL && out.told.len > 0)
        Py_CLEAR(((vm_object *)self)->fed);
    replied.status = out.told.status;
    Py_XDECREF(out.more);
    return has_no_memory || replied.status == PALQYTUN_DONE ? output : refused(&call, &replied);
}

PyObject *refuse_readers(void)
{
    return PyErr_Format(PyExc_BufferError, "the output that was lent is still read");
}

/* The output is a view of the handle, which stays with it. If there is no memory for the view, the next one has these bytes. */
static struct method lend_output_method = {"lend_output", 0, 0, 0, {NULL}, {NULL}, NULL};
static PyObject *lend_output(GIVEN)
{
    BEGIN_METHOD(lend_output);
    OTHERWISE_LEAVE(true);
    handle *session = (handle *)((vm_object *)self)->session;
    if (session->readers > 0)
        return refuse_readers();
    if (!session->is_unread)
        replied.status = pq_lend_output(vm, &session->lent);
    if (replied.status != PALQYTUN_DONE)
        return refused(&call, &replied);
    if (session->lent.len > 0)
        Py_CLEAR(((vm_object *)self)->fed);
    PyObject *view = PyMemoryView_FromObject((PyObject *)session);
    session->is_unread = view == NULL;
    return view;
}

static struct method is_completed_method = {"is_completed", 1, 1, 1, {"handle"}, {NULL}, NULL};
static PyObject *is_completed(GIVEN)
{
    BEGIN_METHOD(is_completed);
    uint32_t handle;
    OTHERWISE_LEAVE(is_handle(given[0], &handle));
    pq_is_completed(vm, handle, &replied);
    return flag_of(&call, &replied);
}

static struct method do_await_method = {"do_await", 1, 1, 1, {"future"}, {NULL}, NULL};
static PyObject *do_await(GIVEN)
{
    BEGIN_METHOD(do_await);
    uint32_t handle;
    OTHERWISE_LEAVE(is_handle(given[0], &handle));
    pq_await(vm, handle, &replied);
    if (replied.status != PALQYTUN_DONE)
        return refused(&call, &replied);
    if (replied.kind == PALQYTUN_AWAKE)
        Py_RETURN_TRUE;
    if (replied.kind == PALQYTUN_WAITING) {
        Py_CLEAR(((vm_object *)self)->fed);
        return Py_XNewRef(PyTuple_GetItem(waits, 2 * (replied.first == 1) + (replied.second == 1)));
    }
    return passed_on(self, "_awaited", &replied);
}

static struct method take_notification_method = {"take_notification", 1, 1, 1, {"handle"}, {NULL}, NULL};
static PyObject *take_notification(GIVEN)
{
    BEGIN_METHOD(take_notification);
    uint32_t handle;
    OTHERWISE_LEAVE(is_handle(given[0], &handle));
    pq_take(vm, handle, &replied);
    if (replied.status != PALQYTUN_DONE)
        return refused(&call, &replied);
    switch (replied.kind) {
    case PALQYTUN_NOTHING:
        Py_RETURN_NONE;
    case PALQYTUN_VOID:
        return Py_NewRef(void_result);
    case PALQYTUN_VALUE:
        return part_of(vm, replied.len);
    default:
        return passed_on(self, "_taken", &replied);
    }
}

static struct method sys_sleep_method = {"sys_sleep", 3, 1, 1, {"wake_up_time", "name", "now"}, {NULL}, NULL};
static PyObject *sys_sleep(GIVEN)
{
    BEGIN_METHOD(sys_sleep);
    uint64_t time;
    palqytun_bytes name;
    OTHERWISE_LEAVE(is_number(given[0], &time) && given[1] != Py_None && is_name(given[1], &name) && (given[2] == NULL || given[2] == Py_None));
    pq_sleep(vm, name.at, name.len, time, &replied);
    return first_of(&call, &replied);
}

static struct method sys_state_get_method = {"sys_state_get", 3, 1, 1, {"key", "name", "unstable"}, {NULL}, NULL};
static PyObject *sys_state_get(GIVEN)
{
    BEGIN_METHOD(sys_state_get);
    palqytun_bytes key, name;
    bool unstable;
    OTHERWISE_LEAVE(is_text(given[0], &key) && is_name(given[1], &name) && is_flag(given[2], &unstable));
    pq_state_get(vm, key.at, key.len, name.at, name.len, &replied);
    return first_of(&call, &replied);
}

static struct method sys_state_set_method = {"sys_state_set", 4, 2, 2, {"key", "value", "name", "unstable"}, {NULL}, NULL};
static PyObject *sys_state_set(GIVEN)
{
    BEGIN_METHOD(sys_state_set);
    palqytun_bytes key, value, name;
    bool unstable;
    OTHERWISE_LEAVE(is_text(given[0], &key) && is_bytes(given[1], &value) && is_name(given[2], &name) && is_flag(given[3], &unstable));
    UNLOCKED(value.len, pq_state_set(vm, key.at, key.len, value.at, value.len, name.at, name.len, unstable, &replied));
    return none_of(&call, &replied);
}

static struct method sys_state_clear_method = {"sys_state_clear", 2, 1, 1, {"key", "name"}, {NULL}, NULL};
static PyObject *sys_state_clear(GIVEN)
{
    BEGIN_METHOD(sys_state_clear);
    palqytun_bytes key, name;
    OTHERWISE_LEAVE(is_text(given[0], &key) && is_name(given[1], &name));
    pq_state_clear(vm, key.at, key.len, name.at, name.len, &replied);
    return none_of(&call, &replied);
}

/* Which handler is called: its names, and from this parameter on its keys, its limits and no headers. */
static bool is_target(PyObject *const *given, int keys, palqytun_target *to)
{
    PyObject *headers = given[keys + 4];
    return is_text(given[0], &to->service) && is_text(given[1], &to->handler) && is_optional(given[keys], &to->key)
        && is_optional(given[keys + 1], &to->idempotency_key) && is_optional(given[keys + 2], &to->scope)
        && is_optional(given[keys + 3], &to->limit_key)
        && (headers == NULL || (Py_IS_TYPE(headers, &PyTuple_Type) && PyTuple_Size(headers) == 0));
}

static struct method sys_call_method = {"sys_call", 10, 3, 3,
    {"service", "handler", "value", "key", "idempotency_key", "scope", "limit_key", "headers", "name", "unstable"}, {NULL}, NULL};
static PyObject *sys_call(GIVEN)
{
    BEGIN_METHOD(sys_call);
    palqytun_target target = {0};
    palqytun_bytes value, name;
    bool unstable;
    OTHERWISE_LEAVE(is_target(given, 3, &target) && is_bytes(given[2], &value) && is_name(given[8], &name) && is_flag(given[9], &unstable));
    UNLOCKED(value.len, pq_call(vm, &target, value.at, value.len, name.at, name.len, unstable, &replied));
    return replied.status == PALQYTUN_DONE ? Py_BuildValue("II", replied.first, replied.second) : refused(&call, &replied);
}

static struct method sys_run_method = {"sys_run", 1, 1, 1, {"name"}, {NULL}, NULL};
static PyObject *sys_run(GIVEN)
{
    BEGIN_METHOD(sys_run);
    palqytun_bytes name;
    OTHERWISE_LEAVE(is_text(given[0], &name));
    pq_run(vm, name.at, name.len, &replied);
    if (replied.status != PALQYTUN_DONE)
        return refused(&call, &replied);
    return PyObject_CallFunction(run_class, "IO", replied.first, replied.second == 1 ? Py_True : Py_False);
}

static struct method propose_method = {"propose_run_completion", 3, 2, 2, {"handle", "result", "policy"}, {NULL}, NULL};
static PyObject *propose(GIVEN)
{
    BEGIN_METHOD(propose);
    uint32_t handle;
    palqytun_value value = {0};
    OTHERWISE_LEAVE(is_handle(given[0], &handle) && is_bytes(given[1], &value.bytes) && given[2] == NULL);
    UNLOCKED(value.bytes.len, pq_propose(vm, handle, &value, NULL, &replied));
    return none_of(&call, &replied);
}

static struct method sys_write_output_method = {"sys_write_output", 2, 1, 1, {"value", "unstable"}, {NULL}, NULL};
static PyObject *sys_write_output(GIVEN)
{
    BEGIN_METHOD(sys_write_output);
    palqytun_value value = {0};
    bool unstable;
    OTHERWISE_LEAVE(is_bytes(given[0], &value.bytes) && is_flag(given[1], &unstable));
    UNLOCKED(value.bytes.len, pq_write_output(vm, &value, unstable, &replied));
    return none_of(&call, &replied);
}

static struct method sys_end_method = {"sys_end", 0, 0, 0, {NULL}, {NULL}, NULL};
static PyObject *sys_end(GIVEN)
{
    BEGIN_METHOD(sys_end);
    OTHERWISE_LEAVE(true);
    pq_end(vm, &replied);
    return none_of(&call, &replied);
}

static const struct {
    struct method *method;
    PyObject *(*made)(GIVEN);
} METHODS[] = {
    {&state_method, state},
    {&is_ready_method, is_ready},
    {&last_command_index_method, last_command_index},
    {&notify_input_method, notify_input},
    {&take_output_method, take_output},
    {&lend_output_method, lend_output},
    {&is_completed_method, is_completed},
    {&do_await_method, do_await},
    {&take_notification_method, take_notification},
    {&sys_sleep_method, sys_sleep},
    {&sys_state_get_method, sys_state_get},
    {&sys_state_set_method, sys_state_set},
    {&sys_state_clear_method, sys_state_clear},
    {&sys_call_method, sys_call},
    {&sys_run_method, sys_run},
    {&propose_method, propose},
    {&sys_write_output_method, sys_write_output},
    {&sys_end_method, sys_end},
};
enum { METHODS_LEN = sizeof METHODS / sizeof *METHODS };

/* ---- The class */

static void let_go(PyObject *self)
{
    PyTypeObject *type = Py_TYPE(self);
    Py_XDECREF(((vm_object *)self)->session);
    Py_XDECREF(((vm_object *)self)->fed);
    ((freefunc)PyType_GetSlot(type, Py_tp_free))(self);
    Py_DECREF(type);
}

static PyObject *session_of(PyObject *self, void *more)
{
    PyObject *session = ((vm_object *)self)->session;
    (void)more;
    if (session == NULL)
        PyErr_SetString(PyExc_AttributeError, "_session");
    return Py_XNewRef(session);
}

static int set_session(PyObject *self, PyObject *session, void *more)
{
    vm_object *it = (vm_object *)self;
    (void)more;
    if (session == NULL || !PyObject_TypeCheck(session, handle_type)) {
        PyErr_SetString(PyExc_TypeError, "a handle was expected");
        return -1;
    }
    PyObject *before = it->session;
    it->session = Py_NewRef(session);
    it->vm = ((handle *)session)->it;
    Py_XDECREF(before);
    return 0;
}

static PyObject *fed_of(PyObject *self, void *more)
{
    PyObject *fed = ((vm_object *)self)->fed;
    (void)more;
    return Py_NewRef(fed == NULL ? Py_None : fed);
}

static int set_fed(PyObject *self, PyObject *fed, void *more)
{
    vm_object *it = (vm_object *)self;
    PyObject *before = it->fed;
    (void)more;
    it->fed = fed == NULL || fed == Py_None ? NULL : Py_NewRef(fed);
    Py_XDECREF(before);
    return 0;
}

/* Takes the method in Python of this name, and its text, which Python keeps. */
static bool take_behind(struct method *it, PyObject *behind, PyObject *texts, const char **text)
{
    PyObject *function = PyDict_GetItemString(behind, it->name), *said = PyDict_GetItemString(texts, it->name);
    *text = said ? PyUnicode_AsUTF8AndSize(said, NULL) : NULL;
    if (function == NULL || *text == NULL) {
        PyErr_Format(PyExc_TypeError, "there is no method %s", it->name);
        return false;
    }
    it->behind = Py_NewRef(function);
    Py_INCREF(said);
    for (Py_ssize_t at = 0; at < it->count; at++)
        if ((it->interned[at] = PyUnicode_InternFromString(it->parameters[at])) == NULL)
            return false;
    return true;
}

PyObject *make_vm_class(PyObject *module, PyObject *args)
{
    static PyMethodDef methods[METHODS_LEN + 1];
    static PyGetSetDef attributes[] = {{"_session", session_of, set_session, NULL, NULL}, {"_fed", fed_of, set_fed, NULL, NULL}, {0}};
    PyObject *behind, *texts;
    (void)module;
    if (!PyArg_ParseTuple(args, "O!O!OO!O!O", &PyDict_Type, &behind, &PyDict_Type, &texts, &void_result, &PyTuple_Type, &waits, &PyTuple_Type, &states,
            &run_class))
        return NULL;
    for (size_t at = 0; at < METHODS_LEN; at++) {
        struct method *it = METHODS[at].method;
        methods[at].ml_name = it->name;
        methods[at].ml_meth = (PyCFunction)(void (*)(void))METHODS[at].made;
        methods[at].ml_flags = METH_FASTCALL | METH_KEYWORDS;
        if (!take_behind(it, behind, texts, &methods[at].ml_doc))
            return NULL;
    }
    Py_INCREF(void_result), Py_INCREF(waits), Py_INCREF(states), Py_INCREF(run_class);
    PyType_Slot slots[] = {{Py_tp_dealloc, (void *)let_go}, {Py_tp_methods, methods}, {Py_tp_getset, attributes}, {0, NULL}};
    PyType_Spec spec = {"palqytun.core.VM", sizeof(vm_object), 0, Py_TPFLAGS_DEFAULT | Py_TPFLAGS_BASETYPE, slots};
    return PyType_FromSpec(&spec);
}

PyObject *method_names(void)
{
    PyObject *made = PyTuple_New(METHODS_LEN);
    for (size_t at = 0; made != NULL && at < METHODS_LEN; at++) {
        PyObject *name = PyUnicode_FromString(METHODS[at].method->name);
        if (name == NULL)
            Py_CLEAR(made);
        else
            PyTuple_SetItem(made, (Py_ssize_t)at, name);
    }
    return made;
}
