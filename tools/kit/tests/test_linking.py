"""What `bindings/build` links of an archive: the functions of the header and no others, and what the library says of itself.

The archive has a function in C for each of the header's, which does nothing. The kit's command rt has to be on the path."""

import subprocess
import sys
import tempfile
import unittest
from pathlib import Path

from tools.kit import about
from tools.kit.commands import run
from tools.kit.exports import PREFIX, Prototype, read_prototypes
from tools.kit.linking import HEADERS, names_of, soname
from tools.kit.toolchain import kit

TOP = Path(__file__).resolve().parents[3]
PROTOTYPES = read_prototypes(TOP / "bindings/proved.h")
SHOWN = {name: it for header in HEADERS for name, it in read_prototypes(TOP / "bindings" / header).items()}


def stub(name: str, prototypes: dict[str, Prototype] = PROTOTYPES) -> str:
    it = prototypes[name]
    parameters = ", ".join(f"{ty} {name}" for ty, name in it.parameters)
    body = "" if it.result == "void" else f"    {it.result} made = {{0}};\n    return made;\n"
    return f"{it.result} {name}({parameters})\n{{\n{body}}}\n"


class Linking(unittest.TestCase):
    def setUp(self) -> None:
        self.room = Path(self.enterContext(tempfile.TemporaryDirectory()))

    def archive(self, text: str) -> Path:
        source, compiled, made = self.room / "it.c", self.room / "it.o", self.room / "it.a"
        source.write_text(f'#include "proved.h"\n#include "palqytun_flat.h"\n{text}', encoding="utf-8")
        run(["cc", "-fPIC", f"-I{TOP / 'bindings'}", "-c", source, "-o", compiled], "the stubs")
        made.unlink(missing_ok=True)
        run(["ar", "rcs", made, compiled], "the stubs")
        return made

    def build(self, archive: Path, *more: Path) -> subprocess.CompletedProcess[str]:
        words: list[str | Path] = [sys.executable, TOP / "bindings/build", archive, self.room / "out/libpalqytun.so", *more]
        return subprocess.run(words, cwd=TOP, capture_output=True, text=True)

    def built(self, archive: Path, *more: Path) -> Path:
        ran = self.build(archive, *more)
        self.assertEqual((ran.returncode, ran.stdout), (0, f"{self.room}/out/libpalqytun.so\n"), ran.stderr)
        return self.room / "out/libpalqytun.so"

    def said(self, library: Path) -> tuple[str, bool]:
        """What the library says of itself, in a process of its own, since a library isn't loaded twice."""
        code = f"import ctypes; it = ctypes.CDLL({str(library)!r}); it.palqytun_build.restype = ctypes.c_char_p; "
        code += "it.palqytun_is_proved.restype = ctypes.c_bool; print(it.palqytun_build().decode()); print(it.palqytun_is_proved())"
        text, is_proved = run([sys.executable, "-c", code], "a caller").splitlines()
        return text, is_proved == "True"

    def test_an_archive_of_the_kit_was_proved(self) -> None:
        library = self.built(self.archive("int inner(void) { return 1; }\n" + "".join(map(stub, PROTOTYPES))))
        self.assertEqual(names_of(library, "--dynamic"), SHOWN.keys())
        self.assertEqual(self.said(library), (about.text(TOP, kit(), is_proved=True), True))
        named = library.with_name(soname(TOP))
        self.assertTrue(named.samefile(library))
        self.assertFalse(named.is_symlink(), "rt ci refuses a repository with a symbolic link")

    def test_one_with_wrappers_was_not(self) -> None:
        library = self.built(self.archive(f"int {PREFIX}proved_new(void) {{ return 1; }}\n" + "".join(map(stub, PROTOTYPES))))
        self.assertEqual(self.said(library), (about.text(TOP, kit(), is_proved=False), False))

    def test_one_that_says_what_it_is_is_believed(self) -> None:
        own = 'const char *palqytun_build(void) { return "mine"; }\nbool palqytun_is_proved(void) { return false; }\n'
        shown = "".join(stub(it, SHOWN) for it in SHOWN if it not in ("palqytun_build", "palqytun_is_proved"))
        self.assertEqual(self.said(self.built(self.archive(own + shown))), ("mine", False))

    def test_code_of_a_test_takes_the_place_of_the_heap(self) -> None:
        refuse = self.room / "refuse.c"
        refuse.write_text("void *malloc(unsigned long size) { (void)size; return 0; }\n", encoding="utf-8")
        library = self.built(self.archive("".join(map(stub, PROTOTYPES))), refuse)
        self.assertEqual(names_of(library, "--dynamic"), SHOWN.keys())

    def test_functions_that_are_missing_or_too_many(self) -> None:
        ran = self.build(self.archive("".join(stub(it) for it in PROTOTYPES if it != "proved_feed")))
        self.assertEqual((ran.returncode, ran.stdout), (1, ""))
        self.assertIn("undefined reference to `proved_feed'", ran.stderr)
        ran = self.build(self.archive("int palqytun_more(void) { return 1; }\n" + "".join(map(stub, PROTOTYPES))))
        self.assertRegex(ran.stderr, r"\Abindings/build: .* shows palqytun_more, which palqytun.h doesn't declare\n\Z")

    def test_an_archive_that_is_not_there(self) -> None:
        ran = self.build(self.room / "none.a")
        self.assertEqual((ran.returncode, ran.stderr), (1, f"bindings/build: there is no archive {self.room}/none.a\n"))


if __name__ == "__main__":
    unittest.main()
