"""Builds the package, for pip: a wheel with the shared object in it, an editable one that points here, or an archive of the sources.

pip calls the functions that begin with `build_` (PEP 517 and PEP 660). They use Python's library alone, so no build needs a network. What the
package is called, and all that is said of it, stands in `pyproject.toml`.

The shared object is the file that the setting `library` names, else the one in the package, else the one that the environment variable
`PALQYTUN_LIBRARY` names. An archive of the sources has none.

With the shared object comes a module in C, which `build_extension.py` builds, if there are a C compiler and Python's headers. Then the wheel is for each
CPython from 3.11 on. Otherwise it is for any Python, which calls the shared object by ctypes. The setting `implementation` demands one of both:
`c` or `ctypes`.

A wheel is for the host on which it is made. With the setting `platform=manylinux_2_17` it is for each Linux of this processor whose C library is
glibc 2.17 or newer, if what is in it needs no newer one: that is looked up by objdump, of binutils.
"""

from __future__ import annotations

import base64
import hashlib
import io
import os
import pathlib
import platform
import re
import subprocess
import sys
import sysconfig
import tarfile
import tempfile
import tomllib
import zipfile
from collections.abc import Iterator, Mapping
from typing import Any

import build_extension

HERE = pathlib.Path(__file__).resolve().parent
LIBRARY = "libpalqytun.so"
HOW_TO_MAKE_IT = "at the top of the repository, `./bindings/build --unproved` makes it in some minutes, and `./bindings/build` makes one that is proved"
LICENCES = ("LICENSE", "NOTICE")
PORTABLE, GLIBC = "manylinux_2_17", (2, 17)
ANY, LIMITED = "py3-none", "cp311-abi3"
NEEDED = re.compile(r"^ *NEEDED +(\S+)$", re.MULTILINE)
SYMBOL = re.compile(r"\(?GLIBC_([\w.]+)\)? +(\w+)$", re.MULTILINE)
Settings = Mapping[str, str | list[str]]


def project() -> dict[str, Any]:
    """What `pyproject.toml` says of the package."""
    with open(HERE / "pyproject.toml", "rb") as file:
        found: dict[str, Any] = tomllib.load(file)["project"]
    return found


def stem() -> str:
    """The package's name and version, as the names of its files have them."""
    return f"{project()['name']}-{project()['version']}"


def setting(settings: Settings | None, name: str, *known: str) -> str | None:
    """A setting, which is one of these words if there are some."""
    found = (settings or {}).get(name)
    if found is None:
        return None
    if not isinstance(found, str) or (known and found not in known):
        sys.exit(f"the setting {name} is {' or '.join(known) or 'one word'}, and not {found}")
    return found


def tag(pythons: str, settings: Settings | None, binaries: Mapping[str, bytes]) -> str:
    """For which hosts the wheel is: these Pythons, on the system and processor of this one, or on each Linux as `PORTABLE` says."""
    if setting(settings, "platform", PORTABLE) is None:
        return f"{pythons}-{sysconfig.get_platform().replace('-', '_').replace('.', '_')}"
    for name, data in binaries.items():
        with tempfile.NamedTemporaryFile() as file:
            file.write(data)
            file.flush()
            why = unportable(pathlib.Path(file.name))
        if why is not None:
            sys.exit(f"{name} is no library for {PORTABLE}: {why}; without that setting the wheel is for this host")
    return f"{pythons}-{PORTABLE}_{platform.machine()}"


def unportable(library: pathlib.Path) -> str | None:
    """Why a shared object doesn't load wherever `PORTABLE` says; none if it does."""
    try:
        ran = subprocess.run(["objdump", "-T", "-p", str(library)], capture_output=True, text=True)
    except OSError:
        return "objdump, which says what it needs, isn't installed"
    if ran.returncode:
        return "objdump can't read it"
    if others := set(NEEDED.findall(ran.stdout)) - {"libc.so.6"}:
        return f"it needs {', '.join(sorted(others))}"
    newer = [f"{name} of glibc {version}" for version, name in SYMBOL.findall(ran.stdout) if _number(version) > GLIBC]
    return f"it needs {', '.join(sorted(newer))}" if newer else None


def _number(version: str) -> tuple[int, ...]:
    """A version of glibc as numbers; what is no number is newer than all of them."""
    parts = version.split(".")
    return tuple(map(int, parts)) if all(map(str.isdigit, parts)) else (sys.maxsize,)


def licence(name: str) -> bytes:
    """A file that says who may do what. In an archive of the sources it is beside this one, and else at the top of the repository."""
    beside = HERE / name
    return (beside if beside.is_file() else HERE.parent / name).read_bytes()


def metadata() -> str:
    """The file METADATA."""
    it = project()
    lines = ["Metadata-Version: 2.1", f"Name: {it['name']}", f"Version: {it['version']}", f"Summary: {it['description']}"]
    lines += [f"Author: {', '.join(one['name'] for one in it['authors'])}", f"License: {it['license']['text']}"]
    lines += [f"License-File: {one}" for one in LICENCES]
    lines += [f"Requires-Python: {it['requires-python']}", *(f"Classifier: {one}" for one in it["classifiers"])]
    for extra, needs in it.get("optional-dependencies", {}).items():
        lines += [f"Provides-Extra: {extra}", *(f'Requires-Dist: {one} ; extra == "{extra}"' for one in needs)]
    lines += ["Description-Content-Type: text/markdown", "", (HERE / it["readme"]).read_text(encoding="utf-8")]
    return "\n".join(lines)


def entry_points() -> str:
    """The file entry_points.txt: the commands that the package installs."""
    return "\n".join(["[console_scripts]", *(f"{name} = {at}" for name, at in project().get("scripts", {}).items())]) + "\n"


def sources() -> Iterator[tuple[str, bytes]]:
    """The files of the package, by their names in a wheel, without what is built."""
    for file in sorted((HERE / "src").rglob("*")):
        if file.suffix in (".py", ".pyi", ".typed", ".html", ".svg"):
            yield str(file.relative_to(HERE / "src")), file.read_bytes()


def library(settings: Settings | None) -> bytes:
    """The shared object."""
    named = setting(settings, "library")
    beside, other = HERE / "src/palqytun" / LIBRARY, os.environ.get("PALQYTUN_LIBRARY")
    path = pathlib.Path(named) if named else pathlib.Path(other) if other and not beside.is_file() else beside
    if not path.is_file():
        # An exit prints this line alone, and pip shows it; of an exception pip would show the traceback.
        sys.exit(f"{path} isn't there: {HOW_TO_MAKE_IT}; the setting library or PALQYTUN_LIBRARY may name another")
    return path.read_bytes()


def extension(settings: Settings | None) -> bytes | None:
    """The module in C, if it can be built and isn't refused."""
    asked = setting(settings, "implementation", "c", "ctypes")
    if asked == "ctypes":
        return None
    try:
        return build_extension.build()
    except build_extension.Unbuilt as error:
        if asked == "c":
            sys.exit(f"the module in C can't be built: {error}")
        print(f"palqytun: without the module in C, since {error}; calls are made by ctypes, which is slower", file=sys.stderr)
        return None


def below(folder: pathlib.Path) -> Iterator[pathlib.Path]:
    """The files of a folder of tests or examples."""
    return (it for it in sorted(folder.rglob("*")) if it.suffix in (".py", ".sql", ".json"))


def write_wheel(folder: str, files: Iterator[tuple[str, bytes]], hosts: str) -> str:
    """Writes a wheel of these files for these hosts, with what describes them, and returns its name."""
    data_of = list(files)
    info, name = f"{stem()}.dist-info", f"{stem()}-{hosts}.whl"
    about = f"Wheel-Version: 1.0\nGenerator: {__name__}\nRoot-Is-Purelib: false\nTag: {hosts}\n"
    record = ""
    with zipfile.ZipFile(pathlib.Path(folder) / name, "w", zipfile.ZIP_DEFLATED) as wheel:
        texts = {"METADATA": metadata(), "WHEEL": about, "entry_points.txt": entry_points()}
        described = {name: text.encode() for name, text in texts.items()} | {it: licence(it) for it in LICENCES}
        for at, data in [*data_of, *((f"{info}/{it}", data) for it, data in described.items())]:
            sum_of = base64.urlsafe_b64encode(hashlib.sha256(data).digest()).rstrip(b"=").decode()
            record += f"{at},sha256={sum_of},{len(data)}\n"
            _add(wheel, at, data)
        _add(wheel, f"{info}/RECORD", f"{record}{info}/RECORD,,\n".encode())
    return name


def _add(wheel: zipfile.ZipFile, at: str, data: bytes) -> None:
    """Adds a file, with no time of its own, so that equal sources make equal wheels."""
    entry = zipfile.ZipInfo(at, (1980, 1, 1, 0, 0, 0))
    entry.compress_type = zipfile.ZIP_DEFLATED
    entry.external_attr = (0o100755 if at.endswith(".so") else 0o100644) << 16
    wheel.writestr(entry, data)


def build_wheel(wheel_directory: str, config_settings: Settings | None = None, metadata_directory: str | None = None) -> str:
    binaries = {f"palqytun/{LIBRARY}": library(config_settings)}
    module = extension(config_settings)
    if module is not None:
        binaries[f"palqytun/{build_extension.NAME}"] = module
    hosts = tag(ANY if module is None else LIMITED, config_settings, binaries)
    return write_wheel(wheel_directory, iter(sorted([*sources(), *binaries.items()])), hosts)


def build_editable(wheel_directory: str, config_settings: Settings | None = None, metadata_directory: str | None = None) -> str:
    module = extension(config_settings)
    if module is not None:
        build_extension.put(module, HERE / "src/palqytun" / build_extension.NAME)
    files = iter([("palqytun.pth", f"{HERE / 'src'}\n".encode())])
    return write_wheel(wheel_directory, files, tag(ANY, None, {}))


def build_sdist(sdist_directory: str, config_settings: Settings | None = None) -> str:
    """An archive of the sources of the package and of its module in C, its tests and examples. The sources of the shared object are the
    repository's: a wheel that is made of the archive takes the shared object that is named."""
    name = f"{stem()}.tar.gz"
    files = [(it, (HERE / it).read_bytes()) for it in ("pyproject.toml", "README.md", "build_wheel.py", "build_extension.py")]
    files += [(it, licence(it)) for it in LICENCES]
    files += [(f"src/{at}", data) for at, data in sources()]
    files += [(str(it.relative_to(HERE)), it.read_bytes()) for folder in ("tests", "examples") for it in below(HERE / folder)]
    files += [(str(it.relative_to(HERE)), it.read_bytes()) for it in sorted((HERE / "extension").glob("*.[ch]"))]
    with tarfile.open(pathlib.Path(sdist_directory) / name, "w:gz") as archive:
        for at, data in [*files, ("PKG-INFO", metadata().encode())]:
            entry = tarfile.TarInfo(f"{stem()}/{at}")
            entry.size = len(data)
            archive.addfile(entry, io.BytesIO(data))
    return name
