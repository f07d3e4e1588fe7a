/* The module palqytun._c: the calls of the library on plain values (calls.c), handles, and the class that stands before VM (vm.c). */
#include "glue.h"

PyTypeObject *handle_type;

static void let_go(PyObject *self)
{
    PyTypeObject *type = Py_TYPE(self);
    handle *it = (handle *)self;
    if (it->it != 0)
        it->close(it->it);
    ((freefunc)PyType_GetSlot(type, Py_tp_free))(self);
    Py_DECREF(type);
}

static int begin_reading(PyObject *self, Py_buffer *view, int flags)
{
    handle *it = (handle *)self;
    void *at = it->lent.len > 0 ? (void *)it->lent.at : "";
    if (PyBuffer_FillInfo(view, self, at, (Py_ssize_t)it->lent.len, 1, flags) != 0)
        return -1;
    it->readers++;
    return 0;
}

static void end_reading(PyObject *self, Py_buffer *view)
{
    (void)view;
    ((handle *)self)->readers--;
}

static bool make_handle_type(void)
{
    PyType_Slot slots[] = {{Py_tp_dealloc, (void *)let_go}, {Py_bf_getbuffer, (void *)begin_reading}, {Py_bf_releasebuffer, (void *)end_reading}, {0, NULL}};
    unsigned int flags = Py_TPFLAGS_DEFAULT | Py_TPFLAGS_DISALLOW_INSTANTIATION;
    PyType_Spec spec = {"palqytun._c.Handle", sizeof(handle), 0, flags, slots};
    handle_type = (PyTypeObject *)PyType_FromSpec(&spec);
    return handle_type != NULL;
}

static PyObject *opened(uint32_t (*open)(uintptr_t *), uint32_t (*close)(uintptr_t))
{
    if (!is_loaded)
        return PyErr_Format(PyExc_RuntimeError, "the library is not loaded");
    allocfunc alloc = (allocfunc)PyType_GetSlot(handle_type, Py_tp_alloc);
    handle *made = (handle *)alloc(handle_type, 0);
    if (made == NULL)
        return NULL;
    made->close = close;
    uint32_t status = open(&made->it);
    if (status == PALQYTUN_DONE)
        return (PyObject *)made;
    made->it = 0;
    Py_DECREF(made);
    return PyLong_FromUnsignedLong(status);
}

/* Ends a handle, and gives the status. One that was closed stays closed. */
static PyObject *closed(PyObject *arg, uint32_t (*close)(uintptr_t))
{
    if (!PyObject_TypeCheck(arg, handle_type))
        return PyErr_Format(PyExc_TypeError, "a handle was expected");
    handle *it = (handle *)arg;
    if (it->readers > 0)
        return refuse_readers();
    uint32_t status = close(it->it);
    if (status != PALQYTUN_BUSY) {
        it->it = 0;
        it->lent = (palqytun_bytes){NULL, 0};
        it->is_unread = false;
    }
    return PyLong_FromUnsignedLong(status);
}

static PyObject *open_vm(PyObject *module, PyObject *none)
{
    (void)module;
    (void)none;
    return opened(pq_open, pq_close);
}

static PyObject *open_journal(PyObject *module, PyObject *none)
{
    (void)module;
    (void)none;
    return opened(pq_journal_open, pq_journal_close);
}

static PyObject *close_vm(PyObject *module, PyObject *arg)
{
    (void)module;
    return closed(arg, pq_close);
}

static PyObject *close_journal(PyObject *module, PyObject *arg)
{
    (void)module;
    return closed(arg, pq_journal_close);
}

/* Loads the library at a path, and gives what is wrong with it, or None. */
static PyObject *load(PyObject *module, PyObject *arg)
{
    char said[4096] = "";
    PyObject *path = NULL;
    (void)module;
    if (!PyUnicode_FSConverter(arg, &path))
        return NULL;
    is_loaded = pq_load(PyBytes_AsString(path), said, sizeof said);
    Py_DECREF(path);
    if (is_loaded)
        Py_RETURN_NONE;
    return PyUnicode_DecodeFSDefault(said);
}

/* What the library says of itself, once it was loaded. */
static PyObject *about(PyObject *module, PyObject *none)
{
    (void)module;
    (void)none;
    if (!is_loaded)
        return PyErr_Format(PyExc_RuntimeError, "the library is not loaded");
    return Py_BuildValue("ssN", pq_build(), pq_version(), PyBool_FromLong(pq_is_proved()));
}

static PyMethodDef OWN[] = {
    {"open", open_vm, METH_NOARGS, NULL},
    {"close", close_vm, METH_O, NULL},
    {"journal_open", open_journal, METH_NOARGS, NULL},
    {"journal_close", close_journal, METH_O, NULL},
    {"load", load, METH_O, NULL},
    {"about", about, METH_NOARGS, NULL},
    {"vm_class", make_vm_class, METH_VARARGS, NULL},
    {0},
};

/* Adds the calls of calls.c. */
static bool add_calls(PyObject *module)
{
    static PyMethodDef methods[128];
    size_t count = 0;
    while (CALLS[count].name != NULL && count < sizeof methods / sizeof *methods - 1) {
        const PyMethodDef made = {CALLS[count].name, (PyCFunction)(void (*)(void))CALLS[count].call, METH_FASTCALL, NULL};
        methods[count++] = made;
    }
    return CALLS[count].name == NULL && PyModule_AddFunctions(module, methods) == 0;
}

/* Adds an object, which is given up. */
static bool add(PyObject *module, const char *name, PyObject *it)
{
    bool is_added = it != NULL && PyModule_AddObjectRef(module, name, it) == 0;
    Py_XDECREF(it);
    return is_added;
}

/* Fills the module, once in a process: what vm.c and glue.c keep belongs to one interpreter. Another one imports nothing, and calls by ctypes. */
static int fill(PyObject *module)
{
    static bool is_filled = false;
    if (is_filled) {
        PyErr_SetString(PyExc_ImportError, "palqytun._c was imported before in this process, and serves that importer alone");
        return -1;
    }
    is_filled = true;
    bool is_well = make_handle_type() && add_calls(module) && add(module, "METHODS", method_names())
        && PyModule_AddIntConstant(module, "ABI", PALQYTUN_ABI) == 0;
    return is_well ? 0 : -1;
}

static PyModuleDef_Slot SLOTS[] = {{Py_mod_exec, (void *)fill}, {0, NULL}};
static struct PyModuleDef MODULE = {PyModuleDef_HEAD_INIT, "palqytun._c", NULL, 0, OWN, SLOTS, NULL, NULL, NULL};

PyMODINIT_FUNC PyInit__c(void)
{
    return PyModuleDef_Init(&MODULE);
}
