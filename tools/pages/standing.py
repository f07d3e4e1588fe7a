"""What stands in for commands of the pages that take too long for a test, or that would change the machine."""

from __future__ import annotations

from pathlib import Path

from tools.kit.linking import soname

# Stands for rt: a program that was built is run as it is, and tests are tried without a second process that checks them. It has the real one in REAL,
# the copy of the repository in COPY, and the repository in BUILT, or the programs in PROGRAMS. RESULTS may have what tests have printed before.
RT = r"""#!/usr/bin/env bash
name=$(basename "$PWD") verb=${1:-} cases=
program=${PROGRAMS:-$BUILT/crates/$name/out}/$name
[[ $verb == check ]] && exit 0
if [[ $verb == try && " $* " == *" --test "* ]]; then
    set -o pipefail
    "$PYTHON" "$COPY/tools/unproved" tests "$name" ${RESULTS:+--results "$RESULTS"} | grep '^test'
    exit
fi
if [[ $verb == try || $verb == run ]] && [[ -x $program ]]; then
    shift
    while (($# > 0)); do
        case $1 in
            --) shift; break ;;
            --cases) cases=$2; shift 2 ;;
            *) break ;;
        esac
    done
    if [[ -z $cases ]]; then
        if [[ $verb == run ]]; then
            mkdir -p out && ln -sf "$program" "out/$name"
        fi
        exec "$program" "$@"
    fi
    for file in "$cases"/*; do
        printf '== %s\n' "$(basename "$file")"
        "$program" "$@" <"$file" || exit
    done
    exit
fi
exec "$REAL" "$@"
"""

# Stands for the command that pip installs: the package of the copy, on a port of the page's own.
PALQYTUN = r"""#!/usr/bin/env bash
if [[ ${1:-} == run && " $* " != *" --port "* ]]; then
    set -- "$@" --port "$PORT"
fi
PYTHONPATH=$COPY/python/src exec "$PYTHON" -m palqytun "$@"
"""

# Stands for the Python into which pip has installed the package.
PYTHON = r"""#!/usr/bin/env bash
PYTHONPATH=$COPY/python/src exec "$PYTHON" "$@"
"""

# Stands for sleep, by which a page waits until its worker has done something. A busy host may need longer than the page says: it goes on until no
# invocation is at work, for two minutes at most.
SLEEP = r"""#!/usr/bin/env bash
/bin/sleep "$@" || exit
for ((n = 0; n < 600; n++)); do
    said=$(curl -s "localhost:$PORT/-/invocations?status=running"; curl -s "localhost:$PORT/-/invocations?status=ready")
    [[ $said == *inv_* ]] || exit 0
    /bin/sleep 0.2
done
"""

# Stands for pip: what it installs is installed by tools/bindings.
PIP = r"""#!/usr/bin/env bash
[[ ${1:-} == install && ${2:-} == ./python* && -f python/src/palqytun/libpalqytun.so ]]
"""

# Stands for bindings/build: the library was built before.
BUILD = r"""#!/usr/bin/env bash
set -eu
cd "$(dirname "$0")/.."
mkdir -p bindings/out
for name in bindings/out/libpalqytun.so bindings/out/SONAME python/src/palqytun/libpalqytun.so; do
    cp "$LIBRARY" "$name"
done
echo "bindings/out/libpalqytun.so: 0.1.0 commit $(printf %012d 0) logic $(printf %016d 0) unproved, in 0 seconds"
"""


def write(folder: Path, copy: Path) -> None:
    """Writes the commands that stand in into a folder, and into the copy of the repository."""
    folder.mkdir()
    build = BUILD.replace("SONAME", soname(copy))
    files = {folder / "rt": RT, folder / "palqytun": PALQYTUN, folder / "python3": PYTHON, folder / "pip": PIP, folder / "sleep": SLEEP, copy / "bindings" / "build": build}
    for file, text in files.items():
        file.write_text(text, encoding="utf-8")
        file.chmod(0o755)
