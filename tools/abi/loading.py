"""The C code by which bindings in other languages load the library at run time: `palqytun_abi.h` and `palqytun_abi.c` in the folder of each.

Each function of the header is there without structs by value, as `pq_NAME`, and a handle is a number: as a pointer it would point anywhere, which
the collectors of some languages don't bear."""

from __future__ import annotations

from tools.kit.exports import Prototype

from . import flat, words
from .header import Header

FOLDERS = ("bindings/go", "bindings/java/src/main/c", "bindings/node/src", "bindings/ruby/ext/palqytun", "python/extension")
PREFIX = "palqytun_"
HANDLES = {"palqytun_vm *": "uintptr_t", "palqytun_journal *": "uintptr_t", "palqytun_vm **": "uintptr_t *", "palqytun_journal **": "uintptr_t *"}
SAID = "/* tools/header --write writes this file, from palqytun.h. */\n"

LOAD = r"""
static bool loads(void *object, const char **lacks)
{
    bool is_whole = true;
FOUND    return is_whole;
}

/* Says why a library can't be used, and what to do. */
static bool refused(const char *path, const char *why, char *said, size_t said_len)
{
    size_t len = strlen(path);
    if (strncmp(why, path, len) == 0 && strncmp(why + len, ": ", 2) == 0)
        why += len + 2;
    snprintf(said, said_len, "%s: %s: HOW; ANOTHER", path, why);
    return false;
}

static bool load(const char *path, char *said, size_t said_len)
{
    char why[128];
    void *object = dlopen(path, RTLD_NOW | RTLD_LOCAL);
    if (object == NULL)
        return refused(path, dlerror(), said, said_len);
    uint32_t (*abi)(void) = NULL;
    *(void **)&abi = dlsym(object, "palqytun_abi");
    if (abi == NULL)
        return refused(path, "its interface has no number, and this package wants NUMBER", said, said_len);
    if (abi() != NUMBER) {
        snprintf(why, sizeof why, "its interface has the number %u, and this package wants NUMBER", (unsigned)abi());
        return refused(path, why, said, said_len);
    }
    const char *lacks = NULL;
    if (loads(object, &lacks))
        return true;
    snprintf(why, sizeof why, "it has no %s", lacks);
    return refused(path, why, said, said_len);
}

static pthread_mutex_t guard = PTHREAD_MUTEX_INITIALIZER;
static bool is_loaded;

bool pq_load(const char *path, char *said, size_t said_len)
{
    pthread_mutex_lock(&guard);
    if (path == NULL || *path == 0)
        path = getenv("PALQYTUN_LIBRARY");
    if (path == NULL || *path == 0)
        path = "LIBRARY";
    is_loaded = is_loaded || load(path, said, said_len);
    bool is_well = is_loaded;
    pthread_mutex_unlock(&guard);
    return is_well;
}
"""

ABOUT_LOAD = """
/* Loads the library once: the file of this path; if it is NULL, the one that the environment variable PALQYTUN_LIBRARY names, or the one that the
   system finds by its name. If it can't, why stands in said. No function below is called before. Any thread may call it. */
bool pq_load(const char *path, char *said, size_t said_len);
"""


def passed(it: Prototype) -> tuple[str, list[tuple[str, str]]]:
    """The name in the library of the form without structs by value, and its parameters."""
    if not flat.is_flattened(it):
        return it.name, list(it.parameters)
    head = flat.head(it).removeprefix("uint32_t ")
    name, _, taken = head.rstrip(")").partition("(")
    rows = [row.rpartition("*") if "*" in row else row.rpartition(" ") for row in taken.split(", ")]
    return name, [(f"{ty}{sign}".strip(), parameter) for ty, sign, parameter in rows]


def _result(it: Prototype) -> str:
    return "uint32_t" if flat.is_flattened(it) else it.result


def _declared(ty: str, name: str) -> str:
    return f"{ty}{'' if ty.endswith('*') else ' '}{name}"


def _head(it: Prototype) -> str:
    taken = ", ".join(_declared(HANDLES.get(ty, ty), name) for ty, name in passed(it)[1]) or "void"
    return _declared(_result(it), f"pq_{it.name.removeprefix(PREFIX)}({taken})")


def header_of(header: Header) -> str:
    """The text of the header."""
    parts = ["/* The library's numbers, structs and functions, as this binding calls them. */\n" + SAID]
    parts.append("#ifndef PALQYTUN_ABI_H\n#define PALQYTUN_ABI_H\n\n#include <stdbool.h>\n#include <stddef.h>\n#include <stdint.h>\n")
    numbers = [f"    {name} = {number}," for name, number in {**header.numbers, **header.enumerators}.items()]
    parts.append("\n".join(["enum {", *numbers, "};", ""]))
    for name, fields in header.structs.items():
        parts.append("\n".join(["typedef struct {", *(f"    {_declared(ty, field)};" for ty, field in fields), f"}} {name};", ""]))
    parts.append(ABOUT_LOAD.lstrip("\n"))
    parts += [*(f"{_head(it)};" for it in header.functions.values()), "\n#endif\n"]
    return "\n".join(parts)


def _function(it: Prototype) -> str:
    given = []
    for ty, name in passed(it)[1]:
        given.append(f"(void {ty.count('*') * '*'}){name}" if ty in HANDLES else name)
    return f"{_head(it)}\n{{\n    return it.{it.name.removeprefix(PREFIX)}({', '.join(given)});\n}}\n"


def code_of(header: Header) -> str:
    """The text of the functions."""
    parts = ["/* The functions of palqytun_abi.h, which are those of the library that was loaded. */\n" + SAID]
    parts.append('#define _GNU_SOURCE\n#include "palqytun_abi.h"\n\n#include <dlfcn.h>\n#include <pthread.h>\n#include <stdio.h>\n#include <stdlib.h>\n#include <string.h>\n')
    rows = []
    for it in header.functions.values():
        taken = ", ".join("void *" + "*" * (ty.count("*") - 1) if ty in HANDLES else ty for ty, _ in passed(it)[1]) or "void"
        rows.append(f"    {_result(it)} (*{it.name.removeprefix(PREFIX)})({taken});")
    parts.append("\n".join(["static struct {", *rows, "} it;"]))
    found = []
    for it in header.functions.values():
        name = it.name.removeprefix(PREFIX)
        found.append(f'    if ((*(void **)&it.{name} = dlsym(object, "{passed(it)[0]}")) == NULL)\n        is_whole = false, *lacks = "{passed(it)[0]}";\n')
    load = LOAD.replace("FOUND", "".join(found)).replace("HOW", words.HOW_TO_MAKE_IT).replace("ANOTHER", words.ANOTHER)
    load = load.replace("NUMBER", str(header.numbers["PALQYTUN_ABI"])).replace('"LIBRARY"', f'"{words.soname(header)}"')
    parts.append(load)
    parts += [_function(it) for it in header.functions.values()]
    return "\n".join(parts)
