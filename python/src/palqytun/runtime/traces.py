"""Traces over services, by the W3C's header `traceparent`: a call takes the trace of whoever made it, and what an invocation calls is a part of its
trace. An invocation is one span, whose id follows from its own; so each attempt names the same one."""

from __future__ import annotations

import hashlib
import re
from dataclasses import dataclass

HEADER = "traceparent"
_FORM = re.compile(r"00-(?!0{32})[0-9a-f]{32}-(?!0{16})[0-9a-f]{16}-[0-9a-f]{2}")


def checked(header: str | None) -> str | None:
    """The header, if it is one; a wrong one is left out, as the W3C asks.

    >>> checked("00-0af7651916cd43dd8448eb211c80319c-b7ad6b7169203331-01")
    '00-0af7651916cd43dd8448eb211c80319c-b7ad6b7169203331-01'
    >>> checked("none") is None
    True
    """
    return header if header is not None and _FORM.fullmatch(header) else None


def _of(text: str, size: int) -> str:
    return hashlib.blake2b(text.encode(), digest_size=size, person=b"trace").hexdigest()


@dataclass(frozen=True)
class Trace:
    """The place of an invocation in a trace."""

    trace_id: str
    span_id: str
    flags: str = "01"
    parent_id: str | None = None  # the span of whoever made it

    @staticmethod
    def of(invocation: str, header: str | None) -> Trace:
        """That of an invocation which was made with this header. Without one it begins a trace of its own.

        >>> Trace.of("inv_1", "00-0af7651916cd43dd8448eb211c80319c-b7ad6b7169203331-00").header
        '00-0af7651916cd43dd8448eb211c80319c-82c0842922d6ea50-00'
        """
        if (given := checked(header)) is None:
            return Trace(_of(invocation, 16), _of(invocation, 8))
        _, trace_id, parent_id, flags = given.split("-")
        return Trace(trace_id, _of(invocation, 8), flags, parent_id)

    @property
    def header(self) -> str:
        """The header for what the invocation calls."""
        return f"00-{self.trace_id}-{self.span_id}-{self.flags}"
