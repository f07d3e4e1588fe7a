"""Java's tables of the interface, each a file of its own in `bindings/java/src/main/java/palqytun`: the numbers (`Abi`), the statuses with their texts,
an enum for each thing that has cases, and the native methods of the calls that `calls.c` has."""

from __future__ import annotations

from . import glue, words
from .header import Header
from .ruby import snake

FOLDER = "bindings/java/src/main/java/palqytun"
SAID = "// tools/header --write writes this file, from palqytun.h.\npackage palqytun;\n"


def _abi(header: Header) -> str:
    numbers = {words.plain(name): number for name, number in {**header.numbers, **header.enumerators}.items()}
    rows = [f"    static final int {name} = {number};" for name, number in numbers.items()]
    return "\n".join([SAID, "/** The numbers of the interface. */", "final class Abi {", *rows, "", "    private Abi() {}", "}", ""])


def _enum(it: words.Group) -> str:
    cases = [f"    {snake(case).upper()}({number})" for case, number in it.cases]
    return f"""{SAID}
/** {it.about} */
public enum {it.name} {{
{f",{chr(10)}".join(cases)};

    private final int number;

    {it.name}(int number) {{
        this.number = number;
    }}

    /** Its number in the interface. */
    public int number() {{
        return number;
    }}

    static {it.name} of(long number) {{
        for ({it.name} it : values()) {{
            if (it.number == number) {{
                return it;
            }}
        }}
        throw new IllegalArgumentException("there is no {it.name} " + number);
    }}
}}
"""


def _statuses(header: Header) -> str:
    cases = [f'    {name}({number}, "{text}")' for name, number, text in words.statuses(header)]
    return f"""{SAID}
/** How a call ended. It is a {{@link StatusException}} if the call wasn't made. */
public enum Status {{
{f",{chr(10)}".join(cases)};

    private final int number;
    private final String text;

    Status(int number, String text) {{
        this.number = number;
        this.text = text;
    }}

    /** Its number in the interface. */
    public int number() {{
        return number;
    }}

    /** What it says. */
    public String text() {{
        return text;
    }}

    static Status of(long number) {{
        for (Status it : values()) {{
            if (it.number == number) {{
                return it;
            }}
        }}
        throw new IllegalArgumentException("there is no status " + number);
    }}
}}
"""


def _calls(header: Header) -> str:
    lacks = glue.FOLDERS["bindings/java/src/main/c"].lacks
    names = [name for it in header.functions.values() if (name := it.name.removeprefix(glue.PREFIX)) not in lacks]
    rows = [f"    static native Object {name}(Object... given);" for name in names]
    return "\n".join([SAID, "/** The calls of palqytun.h, by their names and with their arguments there. */", "final class Calls {", *rows, "", "    private Calls() {}", "}", ""])


def modules_of(header: Header) -> dict[str, str]:
    """The files, with their texts."""
    made = {"Abi": _abi(header), "Status": _statuses(header), "Calls": _calls(header), **{it.name: _enum(it) for it in words.groups(header)}}
    return {f"{FOLDER}/{name}.java": text for name, text in made.items()}
