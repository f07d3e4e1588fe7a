"""The package for Java."""

from __future__ import annotations

from pathlib import Path

from tools.programs.commands import ended

from .common import SECONDS, Bindings, copied, example_of, loads, plays

GSON = "/usr/share/java/gson.jar"
HEAP = ("-Xms64m", "-Xmx64m", "-XX:+AlwaysPreTouch", "-XX:+UseSerialGC")
"""Java's own heap has a fixed size, so what grows is the library's."""


def java(it: Bindings) -> None:
    """Builds the package, plays the suite, and runs its tests and README's example; all with JNI's own checks."""
    if not it.checks.has("the package for Java", "jdk", "gson"):
        return
    folder, made = copied(it, "java"), f"{it.room}/java-made"
    if not it.checks.build("the package for Java is built", [f"{folder}/build.sh", made]):
        return
    code, printed = example_of("java", "java")
    Path(folder, "examples/Example.java").write_text(code, encoding="utf-8")
    classes, path = f"{made}/programs", f"{made}/palqytun.jar:{GSON}"
    sources = [str(one) for part in ("examples", "src/test/java") for one in sorted(Path(folder, part).glob("*.java"))]
    if not it.checks.build("its programs are compiled", ["javac", "--release", "17", "-Xlint:all", "-Werror", "-cp", path, "-d", classes, *sources]):
        return
    command = ["java", "-Xcheck:jni", *HEAP, "-cp", f"{path}:{classes}"]
    plays(it, "Java", [*command, "Conform"])
    loads(it, "Java", [*command, "About"])
    it.checks.prints("the example of bindings/java/README.md", [*command, "Example"], printed, it.env())
    it.checks.build("the bench for Java", [*command, "Bench", "1"], it.env())
    for test in ("TestMisuse", "TestDiffering", "TestMemory"):
        it.counted(f"{test} of bindings/java", [*command, test])
    lacks_native(it, command)


def lacks_native(it: Bindings, command: list[str]) -> None:
    """Native code that isn't there has to be named, with what to do."""
    path = f"{it.room}/nowhere/libpalqytun_jni.so"
    ran = ended([command[0], f"-Dpalqytun.jni={path}", *command[1:], "About"], it.env(), None, SECONDS)
    is_well = ran.status == 1 and f"{path}: the native code can't be loaded: " in ran.said and "bindings/java/build.sh makes it" in ran.said
    it.checks.tell("Java says that its native code is missing", None if is_well else ran.shown())
