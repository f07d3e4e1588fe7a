/* How values of Python are read and made. */
#include "glue.h"

bool is_loaded = false;

bool begin(struct lent *lent, PyObject *module, PyObject *const *args, Py_ssize_t args_len, Py_ssize_t count)
{
    (void)module;
    lent->args = args;
    lent->size = lent->kept_len = lent->blocks_len = 0;
    lent->is_wrong = lent->has_nodes = false;
    if (!is_loaded)
        PyErr_SetString(PyExc_RuntimeError, "the library is not loaded");
    else if (args_len != count)
        PyErr_Format(PyExc_TypeError, "%zd arguments were expected, not %zd", count, args_len);
    return is_loaded && args_len == count;
}

bool end(struct lent *lent)
{
    while (lent->kept_len > 0)
        Py_DECREF(lent->kept[--lent->kept_len]);
    while (lent->blocks_len > 0)
        PyMem_Free(lent->blocks[--lent->blocks_len]);
    if (lent->has_nodes)
        PyBuffer_Release(&lent->nodes);
    return !lent->is_wrong;
}

bool is_read(const struct lent *lent)
{
    return !lent->is_wrong;
}

/* Sets what is wrong, unless something else was wrong before. */
static void refuse(struct lent *lent, PyObject *kind, const char *what)
{
    if (!lent->is_wrong && PyErr_Occurred() == NULL)
        PyErr_SetString(kind, what);
    lent->is_wrong = true;
}

PyObject *field(struct lent *lent, PyObject *of, const char *name)
{
    PyObject *it = lent->is_wrong ? NULL : PyObject_GetAttrString(of, name);
    if (it != NULL && lent->kept_len < MOST_KEPT)
        return lent->kept[lent->kept_len++] = it;
    Py_XDECREF(it);
    refuse(lent, PyExc_SystemError, "too many fields");
    return Py_None;
}

/* ---- Arguments */

uintptr_t read_handle(struct lent *lent, PyObject *it)
{
    if (PyObject_TypeCheck(it, handle_type))
        return ((handle *)it)->it;
    refuse(lent, PyExc_TypeError, "a handle was expected");
    return 0;
}

palqytun_bytes read_bytes(struct lent *lent, PyObject *it)
{
    char *at = NULL;
    Py_ssize_t len = 0;
    if (!PyBytes_Check(it) || PyBytes_AsStringAndSize(it, &at, &len) != 0) {
        refuse(lent, PyExc_TypeError, "bytes were expected");
        return (palqytun_bytes){NULL, 0};
    }
    lent->size += (size_t)len;
    return (palqytun_bytes){(const uint8_t *)at, (size_t)len};
}

palqytun_optional read_optional(struct lent *lent, PyObject *it)
{
    palqytun_optional none = {false, {NULL, 0}};
    return it == Py_None ? none : (palqytun_optional){true, read_bytes(lent, it)};
}

palqytun_bytes read_lent(struct lent *lent, PyObject *it)
{
    return read_optional(lent, it).bytes;
}

static bool read_pair(struct lent *lent, PyObject *it, palqytun_pair *to)
{
    if (it == NULL || !PyTuple_Check(it) || PyTuple_Size(it) != 2)
        return false;
    to->key = read_bytes(lent, PyTuple_GetItem(it, 0));
    to->value = read_bytes(lent, PyTuple_GetItem(it, 1));
    return true;
}

const palqytun_pair *read_pairs(struct lent *lent, PyObject *it, size_t *len)
{
    Py_ssize_t count = PyTuple_Check(it) ? PyTuple_Size(it) : -1;
    if (count == 0)
        return NULL;
    palqytun_pair *pairs = NULL;
    if (count > 0 && lent->blocks_len < MOST_BLOCKS)
        pairs = lent->blocks[lent->blocks_len++] = PyMem_Calloc((size_t)count, sizeof *pairs);
    if (count > 0 && pairs == NULL)
        PyErr_NoMemory();
    bool is_well = pairs != NULL;
    for (Py_ssize_t at = 0; is_well && at < count; at++)
        is_well = read_pair(lent, PyTuple_GetItem(it, at), &pairs[at]);
    if (!is_well)
        refuse(lent, PyExc_TypeError, "a tuple of pairs was expected");
    *len = is_well ? (size_t)count : 0;
    return pairs;
}

const palqytun_node *read_nodes(struct lent *lent, PyObject *it, size_t *len)
{
    if (lent->has_nodes || PyObject_GetBuffer(it, &lent->nodes, PyBUF_SIMPLE) != 0) {
        refuse(lent, PyExc_TypeError, "nodes were expected");
        return NULL;
    }
    lent->has_nodes = true;
    *len = (size_t)lent->nodes.len / sizeof(palqytun_node);
    return lent->nodes.buf;
}

bool read_bool(struct lent *lent, PyObject *it)
{
    int found = PyObject_IsTrue(it);
    if (found < 0)
        refuse(lent, PyExc_TypeError, "a bool was expected");
    return found == 1;
}

static uint64_t whole(struct lent *lent, PyObject *it, uint64_t most)
{
    if (lent->is_wrong)
        return 0;
    uint64_t found = PyLong_Check(it) ? PyLong_AsUnsignedLongLong(it) : UINT64_MAX;
    if (found > most || (found == UINT64_MAX && (!PyLong_Check(it) || PyErr_Occurred() != NULL)))
        refuse(lent, PyExc_ValueError, "a number is out of its bounds");
    return found;
}

uint16_t read_u16(struct lent *lent, PyObject *it)
{
    return (uint16_t)whole(lent, it, UINT16_MAX);
}

uint32_t read_u32(struct lent *lent, PyObject *it)
{
    return (uint32_t)whole(lent, it, UINT32_MAX);
}

uint64_t read_u64(struct lent *lent, PyObject *it)
{
    return whole(lent, it, UINT64_MAX);
}

size_t read_size(struct lent *lent, PyObject *it)
{
    return (size_t)whole(lent, it, SIZE_MAX);
}

/* ---- What is given back */

uint8_t *out_at(struct out *out)
{
    return out->more ? (uint8_t *)PyBytes_AsString(out->more) : out->room;
}

size_t out_len(const struct out *out)
{
    return out->more ? (size_t)PyBytes_Size(out->more) : sizeof out->room;
}

bool is_short(struct out *out)
{
    if (out->told.status != PALQYTUN_NO_ROOM)
        return false;
    Py_CLEAR(out->more);
    out->more = PyBytes_FromStringAndSize(NULL, (Py_ssize_t)out->told.len);
    return out->more != NULL;
}

PyObject *give_status(struct lent *lent, uint32_t status)
{
    return end(lent) ? PyLong_FromUnsignedLong(status) : NULL;
}

/* The type of a row of numbers by its names, made once. */
static PyTypeObject *row_type(const char *const names[], size_t count)
{
    static struct {
        const char *const *names;
        PyTypeObject *type;
    } types[16];
    size_t at = 0;
    while (at < 16 && types[at].names != NULL && types[at].names != names)
        at++;
    if (at == 16) {
        PyErr_SetString(PyExc_SystemError, "too many kinds of rows");
        return NULL;
    }
    if (types[at].type == NULL) {
        PyStructSequence_Field fields[16] = {{0}};
        for (size_t i = 0; i < count && i < 15; i++)
            fields[i].name = names[i];
        PyStructSequence_Desc desc = {"palqytun._c.Row", NULL, fields, (int)count};
        types[at].type = PyStructSequence_NewType(&desc);
        types[at].names = types[at].type ? names : NULL;
    }
    return types[at].type;
}

static PyObject *row_of(const char *const names[], const uint64_t values[], size_t count)
{
    PyTypeObject *type = row_type(names, count);
    PyObject *made = type ? PyStructSequence_New(type) : NULL;
    for (size_t at = 0; made != NULL && at < count; at++) {
        PyObject *number = PyLong_FromUnsignedLongLong(values[at]);
        if (number == NULL)
            Py_CLEAR(made);
        else
            PyStructSequence_SetItem(made, (Py_ssize_t)at, number);
    }
    return made;
}

PyObject *give_row(struct lent *lent, const char *const names[], const uint64_t values[], size_t count)
{
    return end(lent) ? row_of(names, values, count) : NULL;
}

PyObject *replied_of(const palqytun_replied *it)
{
    static const char *const names[] = {"status", "kind", "first", "second", "third", "number", "rows", "len"};
    const uint64_t values[] = {it->status, it->kind, it->first, it->second, it->third, it->number, it->rows, it->len};
    return row_of(names, values, sizeof values / sizeof *values);
}

PyObject *give_replied(struct lent *lent, const palqytun_replied *it)
{
    return end(lent) ? replied_of(it) : NULL;
}

PyObject *bytes_of(struct out *out)
{
    if (out->more != NULL && (size_t)PyBytes_Size(out->more) == out->told.len)
        return Py_NewRef(out->more);
    return PyBytes_FromStringAndSize((const char *)out_at(out), (Py_ssize_t)out->told.len);
}

PyObject *give_bytes(struct lent *lent, struct out *out)
{
    PyObject *given = NULL;
    if (end(lent) && out->told.status != PALQYTUN_NO_ROOM) /* else there was no memory for so many bytes */
        given = out->told.status == PALQYTUN_DONE ? bytes_of(out) : PyLong_FromUnsignedLong(out->told.status);
    Py_XDECREF(out->more);
    return given;
}
