"""One phrase of what stands in a file, from its first comment."""

from __future__ import annotations

import re
from pathlib import Path

MOST = 100
# The files of a proof that the prover names: what they prove is in their folder's name.
OF_PROOF = {"Answers", "Invariants", "Proof", "Goals", "Statement"}
COMMENTS = {
    ".rt": re.compile(r"\A(?://! ?[^\n]*\n)+"),
    ".antt": re.compile(r"\A(?:-- ?[^\n]*\n)+"),
    ".py": re.compile(r"\A(?:#[^\n]*\n|\s)*[rb]?\"\"\"(?P<said>.*?)(?:\"\"\"|\n\n)", re.DOTALL),
    ".c": re.compile(r"\A\s*/\*(?P<said>.*?)(?:\*/|\n\n)", re.DOTALL),
    ".java": re.compile(r".*?/\*\*(?P<said>.*?)\*/", re.DOTALL),
    ".md": re.compile(r"\A# (?P<said>[^\n]*)"),
    "#": re.compile(r"\A(?:#!?[^\n]*\n)+"),
}
COMMENTS[".h"] = COMMENTS[".c"]
MARKS = re.compile(r"^\s*(?://!|//|--|\*(?!/)|#(?!!))\s?", re.MULTILINE)


def comment(path: Path, text: str) -> str:
    """Returns the first comment of a file as one line; an empty text if it has none."""
    python = text.startswith("#!") and "python" in text.partition("\n")[0]
    match = COMMENTS.get(".py" if python else path.suffix, COMMENTS["#"]).match(text)
    if not match:
        return ""
    found = match.groupdict().get("said") or match[0]
    found = "\n".join(line for line in found.splitlines() if not line.startswith("#!"))
    return " ".join(MARKS.sub("", found).split())


def sentence(text: str) -> str:
    """Returns the first sentence of a text."""
    return re.split(r"(?<=[^.]\.)\s+(?=[A-Z`])", text, maxsplit=1)[0]


def phrase(path: Path, text: str) -> str:
    """Returns what stands in a file, as one phrase of at most MOST signs."""
    said = sentence(comment(path, text)) or by_place(path)
    return said if len(said) <= MOST else said[: MOST - 2].rpartition(" ")[0].rstrip(",;:") + " .."


def by_place(path: Path) -> str:
    """Returns what a file without a comment is, by where it stands."""
    parts = path.parts
    if path.suffix == ".edit":
        return "a wrong body: " + path.stem.replace("-", " ")
    if path.stem in OF_PROOF and "proofs" in parts:
        return "proves " + "::".join(parts[3:-1])
    if len(parts) > 2 and parts[2] in {"runs", "rows"}:
        return f"a run of {parts[1]}: {path.stem}"
    if len(parts) > 2 and parts[2] == "proofs":
        return "lemmas"
    if path.suffix == ".out":
        return "what an example has to print"
    return ""
