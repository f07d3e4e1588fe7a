"""The pages of operators, written by the server without a script. The texts are those of the folder templates, in which Jinja escapes whatever is
put in."""

from __future__ import annotations

import pathlib
import urllib.parse
from collections.abc import Iterable, Mapping
from dataclasses import replace
from typing import Any

import jinja2

from . import attributes, keyed, shown
from .acts import ACTS
from .filters import ASKED, Filter
from .operate import error_of
from .picture import MOST_STEPS, picture
from .timeline import Timeline

ROOT = "/-/page"
MOST = 100  # rows of a list


def _first_error(row: dict[str, Any]) -> str:
    return error_of(row)[:120]


def _query(pairs: Mapping[str, object]) -> str:
    return urllib.parse.urlencode({name: value for name, value in pairs.items() if value not in (None, "")})


def _part(text: str) -> str:
    """One part of a path."""
    return urllib.parse.quote(text, safe="")


def _as_text(value: bytes) -> str:
    return keyed.shown(value)


def _environment() -> jinja2.Environment:
    folder = pathlib.Path(__file__).parent / "templates"
    made = jinja2.Environment(loader=jinja2.FileSystemLoader(folder), autoescape=True, undefined=jinja2.StrictUndefined)
    made.filters |= {"moment": shown.moment, "lasted": shown.lasted, "target": shown.target, "limits": shown.limits, "first_error": _first_error}
    made.filters |= {"query": _query, "part": _part, "as_text": _as_text, "has": lambda pair: attributes.query(*pair)}
    return made


_templates = _environment()


def _page(template: str, title: str, root: str, **parts: Any) -> str:
    return _templates.get_template(template).render(title=title, root=root, **parts)


def asked_for_token(is_wrong: bool, root: str = ROOT) -> str:
    """What is shown instead of a page until the ingress's token is given."""
    return _page("token.html", "Palqytun", root, is_wrong=is_wrong)


# ---- invocations


def listed(rows: list[dict[str, Any]], asked: Filter, now: float, *, services: Iterable[str] = (), root: str = ROOT) -> str:
    """Invocations that were asked for, the newest first, at most `MOST` of them; what asks for others; and what acts on them."""
    given = asked.given
    older = replace(asked, after=None, before=rows[MOST - 1]["seq"]).given if len(rows) > MOST else None
    kinds = [(it, replace(asked, status=it, before=None, after=None).given) for it in (None, *ASKED)]
    parts = {"rows": rows[:MOST], "asked": asked, "given": given, "older": older, "kinds": kinds, "services": sorted(services), "now": now}
    return _page("list.html", "Invocations", root, acts=list(ACTS), **parts)


def confirmed(name: str, asked: Filter, ids: list[str], count: int, root: str = ROOT) -> str:
    """What is asked before an act is done to several invocations: `ids` are chosen ones, or else the first ones that the filter finds."""
    return _page("confirm.html", f"{name.capitalize()} {count} invocations?", root, act=name, given=asked.given, ids=ids, count=count)


def done(name: str, said: Mapping[str, str], root: str = ROOT) -> str:
    """What was done to each."""
    return _page("done.html", f"{name.capitalize()}: {len(said)} invocations", root, said=said)


def drawn(it: Timeline, now: float, root: str = ROOT) -> str:
    """An invocation: its row, the picture, and each entry as a line."""
    row, steps = it.invocation, it.steps[-MOST_STEPS:]
    facts = [f"{name}: {shown.moment(row[name])} UTC" for name in ("created", "cancelled", "deadline", "ended") if row[name] is not None]
    if row["status"] == "ready" and row["due"] > now:
        facts.append(f"goes on in {shown.lasted(row['due'] - now)}")
    facts += [f"{row['entries']} entries", f"{len(it.attempts)} attempts"]
    has_ended = row["status"] in ("done", "failed")
    acts = ["restart"] if has_ended else ["cancel", "kill", "resume" if row["status"] == "paused" else "pause"]
    return _page("invocation.html", shown.target(row), root, row=row, facts=facts, acts=acts, has_ended=has_ended, steps=steps, picture=picture(it, steps, now))


# ---- the rest


def schedules(rows: list[dict[str, Any]], now: float, root: str = ROOT) -> str:
    return _page("schedules.html", "Schedules", root, rows=rows, now=now)


def queues(rows: list[dict[str, Any]], root: str = ROOT) -> str:
    return _page("queues.html", "Queues", root, rows=rows)


def versions(rows: list[dict[str, Any]], root: str = ROOT) -> str:
    return _page("versions.html", "Versions", root, rows=rows)


def services_with_state(names: list[str], root: str = ROOT) -> str:
    return _page("states.html", "States", root, names=names)


def keys(service: str, rows: list[tuple[str, int, int]], text: str, root: str = ROOT) -> str:
    """The keys of a service that have a state, at most `MOST`."""
    return _page("keys.html", f"States of {service}", root, service=service, rows=rows[:MOST], text=text, after=rows[MOST - 1][0] if len(rows) > MOST else None)


def state(service: str, key: str, found: Mapping[str, bytes], holder: str | None, said: str = "", root: str = ROOT) -> str:
    """The state of a key, which can be changed while no invocation has the key."""
    return _page("state.html", f"State of {service}/{key}", root, service=service, key=key, found=found, holder=holder, said=said)


def audit(rows: list[dict[str, Any]], invocation: str | None, root: str = ROOT) -> str:
    older = rows[MOST - 1]["seq"] if len(rows) > MOST else None
    return _page("audit.html", "Audit", root, rows=rows[:MOST], invocation=invocation, older=older)


def refused(code: int, message: str, root: str = ROOT) -> str:
    return _page("refused.html", f"That isn't possible ({code})", root, message=message)
