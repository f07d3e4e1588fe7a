/* How calls.c reads values of Python, and makes them. Where a value can't be read an exception is set, and the call isn't made. */
#ifndef GLUE_H
#define GLUE_H

#define Py_LIMITED_API 0x030b0000 /* Python 3.11 and newer */
#define PY_SSIZE_T_CLEAN
#include <Python.h>

#include "palqytun_abi.h"

#include <string.h>

typedef PyObject *it_value;

enum {
    ROOM = 512,
    MOST_KEPT = 32,
    MOST_BLOCKS = 4,
    /* Bytes. A call that copies more lets other threads run. */
    KEPT = 65536
};

/* What is lent for a call: the arguments, what was read of them, and how many bytes that is. */
struct lent {
    PyObject *const *args;
    size_t size;
    bool is_wrong, has_nodes;
    size_t kept_len, blocks_len;
    PyObject *kept[MOST_KEPT];
    void *blocks[MOST_BLOCKS];
    Py_buffer nodes;
};

/* Where a call writes bytes: at first to a room on the stack, and then, if there is too little, to the object that is given back. */
struct out {
    palqytun_told told;
    PyObject *more;
    uint8_t room[ROOM];
};

typedef PyObject *it_call(PyObject *module, PyObject *const *args, Py_ssize_t args_len);

struct made {
    const char *name;
    it_call *call;
};
extern const struct made CALLS[];

#define CALL(NAME) static PyObject *call_##NAME(PyObject *module, PyObject *const *args, Py_ssize_t args_len)
#define BEGIN(COUNT) \
    struct lent lent; \
    if (!begin(&lent, module, args, args_len, COUNT)) \
        return NULL
#define ARG(AT) lent.args[AT]
#define MAKES(NAME) {#NAME, call_##NAME},
/* Makes a call that copies so many bytes. */
#define UNLOCKED(SIZE, CALL) \
    do { \
        PyThreadState *mine = (SIZE) > KEPT ? PyEval_SaveThread() : NULL; \
        CALL; \
        if (mine != NULL) \
            PyEval_RestoreThread(mine); \
    } while (0)

/* Whether the library is loaded. No function of it is called before. */
extern bool is_loaded;
/* Begins a call of so many arguments. */
bool begin(struct lent *lent, PyObject *module, PyObject *const *args, Py_ssize_t args_len, Py_ssize_t count);
/* Ends it, and tells whether all was read. */
bool end(struct lent *lent);
bool is_read(const struct lent *lent);
/* An attribute, which is kept until the end. */
PyObject *field(struct lent *lent, PyObject *of, const char *name);

uintptr_t read_handle(struct lent *lent, PyObject *it);
/* The bytes of a `bytes`. */
palqytun_bytes read_bytes(struct lent *lent, PyObject *it);
/* The same, or none of None. */
palqytun_optional read_optional(struct lent *lent, PyObject *it);
/* The same, with a pointer that is NULL if there are none. */
palqytun_bytes read_lent(struct lent *lent, PyObject *it);
/* A tuple of tuples of two `bytes`. */
const palqytun_pair *read_pairs(struct lent *lent, PyObject *it, size_t *len);
/* An `array.array("I")` of kinds and numbers in turn. */
const palqytun_node *read_nodes(struct lent *lent, PyObject *it, size_t *len);
bool read_bool(struct lent *lent, PyObject *it);
uint16_t read_u16(struct lent *lent, PyObject *it);
uint32_t read_u32(struct lent *lent, PyObject *it);
uint64_t read_u64(struct lent *lent, PyObject *it);
size_t read_size(struct lent *lent, PyObject *it);

uint8_t *out_at(struct out *out);
size_t out_len(const struct out *out);
/* Whether there was too little room; there is more then. */
bool is_short(struct out *out);

PyObject *give_status(struct lent *lent, uint32_t status);
PyObject *give_replied(struct lent *lent, const palqytun_replied *it);
/* What was written. */
PyObject *bytes_of(struct out *out);
/* The same, or the status if it isn't done. */
PyObject *give_bytes(struct lent *lent, struct out *out);
PyObject *give_row(struct lent *lent, const char *const names[], const uint64_t values[], size_t count);
/* A reply as an object. */
PyObject *replied_of(const palqytun_replied *it);

/* A handle of a VM or of a journal, which ends with its garbage. The output that a VM has lent last is its buffer: while somebody reads that, the VM
   is neither closed nor lends another one. */
typedef struct {
    PyObject_HEAD
    uintptr_t it;
    uint32_t (*close)(uintptr_t);
    palqytun_bytes lent;
    bool is_unread; /* there was no memory for a view of it */
    size_t readers;
} handle;
extern PyTypeObject *handle_type;

/* The class below palqytun.core.VM, once: of the methods in Python behind its own and their texts, by their names, and of what calls return. */
PyObject *make_vm_class(PyObject *module, PyObject *args);
/* Raises that the output which was lent is still read. */
PyObject *refuse_readers(void);
/* The names of its methods. */
PyObject *method_names(void);

#endif
