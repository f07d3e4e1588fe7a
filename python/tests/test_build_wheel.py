"""The wheel has what it records, the archive makes the same wheel, and without a shared object nothing is built. A wheel for each Linux has a
shared object that loads there. The module in C is in it if it could be built."""

import base64
import hashlib
import os
import pathlib
import shutil
import subprocess
import sys
import tarfile
import tempfile
import unittest
import zipfile

PROJECT = pathlib.Path(__file__).resolve().parents[1]


LIBRARY = "src/palqytun/libpalqytun.so"
PORTABLE = {"platform": "manylinux_2_17"}


def build(
    hook: str, project: pathlib.Path, into: pathlib.Path, settings: dict[str, str] | None = None, **more: str
) -> subprocess.CompletedProcess[str]:
    """Calls a function of the backend as pip does: in the project's folder, with more variables in the environment. The compiler optimises nothing, unless
    that is asked: a module is made in a third of the time, and is only looked at."""
    code = f"import build_wheel; print(build_wheel.{hook}({str(into)!r}, {settings!r}))"
    env = {name: it for name, it in os.environ.items() if name != "PALQYTUN_LIBRARY"} | {"CFLAGS": "-O0"} | more
    return subprocess.run([sys.executable, "-B", "-c", code], cwd=project, env=env, capture_output=True, text=True)


class Wheels(unittest.TestCase):
    def setUp(self) -> None:
        self.room = pathlib.Path(self.enterContext(tempfile.TemporaryDirectory()))
        self.project = self.room / "project"
        shutil.copytree(PROJECT, self.project, ignore=shutil.ignore_patterns("*.so", "__pycache__", ".mypy_cache"))
        (self.project / LIBRARY).write_bytes(b"the shared object")
        for name in ("LICENSE", "NOTICE"):
            shutil.copy(PROJECT.parent / name, self.room)

    def built(self, hook: str, project: pathlib.Path, settings: dict[str, str] | None = None, **more: str) -> pathlib.Path:
        """What a function builds, without the module unless it is asked for, since a compiler takes its time."""
        asked = {} if hook == "build_sdist" else {"implementation": "ctypes", **(settings or {})}
        ran = build(hook, project, self.room, asked, **more)
        self.assertEqual(ran.returncode, 0, ran.stderr)
        return self.room / ran.stdout.strip()

    def test_a_wheel(self) -> None:
        wheel = zipfile.ZipFile(self.built("build_wheel", self.project))
        names = wheel.namelist()
        package = {f"palqytun/{it.name}" for it in (PROJECT / "src/palqytun").glob("*.py")}
        templates = {f"palqytun/runtime/templates/{it.name}" for it in (PROJECT / "src/palqytun/runtime/templates").iterdir()}
        self.assertIn("palqytun/runtime/templates/list.html", templates)
        self.assertLessEqual(package | templates | {"palqytun/py.typed", "palqytun/libpalqytun.so"}, set(names))
        self.assertEqual(wheel.read("palqytun/libpalqytun.so"), b"the shared object")
        record = [it for it in names if it.endswith(".dist-info/RECORD")][0]
        rows = dict(row.split(",", 1) for row in wheel.read(record).decode().splitlines())
        self.assertEqual(set(rows), set(names))
        for name in set(names) - {record}:
            sum_of = base64.urlsafe_b64encode(hashlib.sha256(wheel.read(name)).digest()).rstrip(b"=").decode()
            self.assertEqual(rows[name], f"sha256={sum_of},{len(wheel.read(name))}")

    def test_a_wheel_with_the_module(self) -> None:
        ran = build("build_wheel", self.project, self.room)
        wheel = self.room / ran.stdout.strip()
        self.assertRegex(wheel.name, r"^palqytun-[\d.]+-cp311-abi3-linux_\w+\.whl$")
        [module] = [zipfile.ZipFile(wheel).read(it) for it in zipfile.ZipFile(wheel).namelist() if it == "palqytun/_c.abi3.so"]
        self.assertTrue(module.startswith(b"\x7fELF"))

    def test_a_wheel_without_the_module(self) -> None:
        for settings, more in ((None, {"CC": "/nowhere/cc"}), ({"implementation": "ctypes"}, {})):
            ran = build("build_wheel", self.project, self.room, settings, **more)
            self.assertRegex(ran.stdout, r"^palqytun-[\d.]+-py3-none-linux_\w+\.whl$")
            names = zipfile.ZipFile(self.room / ran.stdout.strip()).namelist()
            self.assertEqual([it for it in names if it.endswith(".so")], ["palqytun/libpalqytun.so"])
            why = "palqytun: without the module in C, since there is no C compiler /nowhere/cc; calls are made by ctypes, which is slower\n"
            self.assertEqual(ran.stderr, why if more else "")

    def test_a_module_that_is_demanded(self) -> None:
        ran = build("build_wheel", self.project, self.room, {"implementation": "c"}, CC="/nowhere/cc")
        self.assertEqual((ran.returncode, ran.stderr), (1, "the module in C can't be built: there is no C compiler /nowhere/cc\n"))
        ran = build("build_wheel", self.project, self.room, {"implementation": "rust"})
        self.assertEqual((ran.returncode, ran.stderr), (1, "the setting implementation is c or ctypes, and not rust\n"))

    def test_a_module_that_the_compiler_refuses(self) -> None:
        (self.project / "extension/module.c").write_text("no C\n", encoding="utf-8")
        ran = build("build_wheel", self.project, self.room)
        self.assertRegex(ran.stderr, "(?s)^palqytun: without the module in C, since the C compiler refused it: .*module.c.*made by ctypes")
        self.assertRegex(ran.stdout, "-py3-none-")

    def test_an_editable_package_has_the_module(self) -> None:
        wheel = zipfile.ZipFile(self.built("build_editable", self.project, {"implementation": "c"}))
        [path] = [wheel.read(it).decode() for it in wheel.namelist() if it.endswith(".pth")]
        self.assertEqual(path, f"{self.project / 'src'}\n")
        self.assertTrue((self.project / "src/palqytun/_c.abi3.so").is_file())

    def test_another_shared_object(self) -> None:
        other = self.room / "other.so"
        other.write_bytes(b"another")
        wheel = zipfile.ZipFile(self.built("build_wheel", self.project, {"library": str(other)}))
        self.assertEqual(wheel.read("palqytun/libpalqytun.so"), b"another")
        (self.project / LIBRARY).unlink()
        wheel = zipfile.ZipFile(self.built("build_wheel", self.project, PALQYTUN_LIBRARY=str(other)))
        self.assertEqual(wheel.read("palqytun/libpalqytun.so"), b"another")

    def test_who_may_do_what(self) -> None:
        wheel = zipfile.ZipFile(self.built("build_wheel", self.project))
        [metadata] = [wheel.read(it).decode() for it in wheel.namelist() if it.endswith(".dist-info/METADATA")]
        for name in ("LICENSE", "NOTICE"):
            [text] = [wheel.read(it) for it in wheel.namelist() if it.endswith(f".dist-info/{name}")]
            self.assertEqual(text, (PROJECT.parent / name).read_bytes())
            self.assertIn(f"\nLicense-File: {name}\n", metadata)
        self.assertIn("\nLicense: MIT\n", metadata)
        self.assertIn("\nAuthor: Palqytun maintainers\n", metadata)

    def compiled(self, code: str, *flags: str) -> None:
        source = self.room / "it.c"
        source.write_text(code)
        subprocess.run(["cc", "-shared", "-fPIC", str(source), "-o", str(self.project / LIBRARY), *flags], check=True)

    def refused(self) -> str:
        ran = build("build_wheel", self.project, self.room, PORTABLE)
        self.assertEqual(ran.returncode, 1)
        (line,) = ran.stderr.splitlines()  # and no traceback
        return line

    def test_a_wheel_for_each_linux(self) -> None:
        self.compiled("#include <stdlib.h>\nvoid *it(void) { return malloc(1); }\n")
        wheel = self.built("build_wheel", self.project, PORTABLE)
        self.assertRegex(wheel.name, r"^palqytun-.*-py3-none-manylinux_2_17_\w+\.whl$")
        [about] = [it for it in zipfile.ZipFile(wheel).namelist() if it.endswith(".dist-info/WHEEL")]
        self.assertIn(f"\nTag: {wheel.stem.split('-', 2)[2]}\n", zipfile.ZipFile(wheel).read(about).decode())

    def test_libraries_that_do_not_load_everywhere(self) -> None:
        self.assertIn("palqytun/libpalqytun.so is no library for manylinux_2_17: objdump can't read it; without that setting", self.refused())
        self.compiled("#include <sys/random.h>\nlong it(void) { return getrandom(0, 0, 0); }\n")
        self.assertIn("it needs getrandom of glibc 2.25;", self.refused())
        self.compiled("int it(void) { return 1; }\n", "-Wl,--no-as-needed", "-lm")
        self.assertIn("it needs libm.so.6;", self.refused())
        ran = build("build_wheel", self.project, self.room, {"platform": "any"})
        self.assertEqual(ran.stderr, "the setting platform is manylinux_2_17, and not any\n")

    def test_the_module_loads_everywhere(self) -> None:
        """What it needs of glibc is as old as `PORTABLE` says."""
        self.compiled("int it(void) { return 1; }\n")
        wheel = self.built("build_wheel", self.project, {**PORTABLE, "implementation": "c"}, CFLAGS="")
        self.assertRegex(wheel.name, r"^palqytun-[\d.]+-cp311-abi3-manylinux_2_17_\w+\.whl$")
        self.assertIn("palqytun/_c.abi3.so", zipfile.ZipFile(wheel).namelist())

    def test_the_archive_has_what_it_needs(self) -> None:
        with tarfile.open(self.built("build_sdist", self.project)) as archive:
            names = {it.name.split("/", 1)[1] for it in archive}
        needed = {"LICENSE", "NOTICE", "README.md", "build_wheel.py", "build_extension.py", "pyproject.toml", "src/palqytun/_c.pyi"}
        needed |= {"src/palqytun/runtime/templates/list.html", *(f"extension/{it.name}" for it in (PROJECT / "extension").iterdir())}
        needed |= {f"tests/{it.relative_to(PROJECT / 'tests')}" for it in (PROJECT / "tests").rglob("*.py")}
        needed |= {f"tests/runtime/schemas/{it.name}" for it in (PROJECT / "tests/runtime/schemas").glob("*.sql")}
        needed |= {f"examples/{it.name}" for it in (PROJECT / "examples").glob("*.py")}
        self.assertLessEqual(needed, names)
        self.assertEqual([it for it in names if it.endswith(".so")], [])  # nothing that was built

    def test_equal_sources_make_equal_wheels(self) -> None:
        first = self.built("build_wheel", self.project, {"implementation": "c"}).read_bytes()
        with tarfile.open(self.built("build_sdist", self.project)) as archive:
            for entry in archive:
                file = self.room / "unpacked" / entry.name
                file.parent.mkdir(parents=True, exist_ok=True)
                file.write_bytes(archive.extractfile(entry).read())
        (unpacked,) = (self.room / "unpacked").iterdir()
        settings = {"library": str(self.project / LIBRARY), "implementation": "c"}
        self.assertEqual(self.built("build_wheel", unpacked, settings).read_bytes(), first)

    def test_without_a_shared_object(self) -> None:
        (self.project / "src/palqytun/libpalqytun.so").unlink()
        ran = build("build_wheel", self.project, self.room)
        self.assertEqual(ran.returncode, 1)
        (line,) = ran.stderr.splitlines()  # and no traceback
        self.assertRegex(line, "libpalqytun.so isn't there: .*`./bindings/build --unproved` makes it .*`./bindings/build` makes one that is proved")


if __name__ == "__main__":
    unittest.main()
