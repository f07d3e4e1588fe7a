"""What an SDK has to say of the VM before there is one: its versions with their content types, the handle of the cancel signal, and the seed of
a version that hands none out."""

from __future__ import annotations

import hashlib
import re

from palqytun import _abi
from palqytun._answers import shown
from palqytun._words import integer
from palqytun.errors import BadFrame
from palqytun.frames import line_of
from palqytun.values import Data

__all__ = ["CANCEL_HANDLE", "SUPPORTED_VERSIONS", "content_type", "seed_of_start"]

CANCEL_HANDLE = _abi.CANCEL_HANDLE
"""The handle of the cancel signal. With `cancel="off"` it ends no await, and the handler may await it by this handle."""

SUPPORTED_VERSIONS = range(_abi.MINIMUM_VERSION, _abi.MAXIMUM_VERSION + 1)
"""The versions of the messages that a VM may have."""

_ID = re.compile(r' id="([^"]*)"')


def content_type(version: int) -> str:
    """The content type of a version, as a VM is made for it.

    >>> [content_type(it) for it in SUPPORTED_VERSIONS][-1]
    'application/vnd.restate.invocation.v8'
    >>> content_type(4)
    Traceback (most recent call last):
    ValueError: version must be one of 5 to 8, not 4
    """
    if integer("version", version) not in SUPPORTED_VERSIONS:
        raise ValueError(f"version must be one of {SUPPORTED_VERSIONS[0]} to {SUPPORTED_VERSIONS[-1]}, not {version}")
    return f"application/vnd.restate.invocation.v{version}"


def seed_of_start(frame: Data) -> int:
    """The seed of an invocation, from the frame of its Start: the first eight bytes of the SHA-256 of its id, the greatest first. Version 5 hands
    no seed out, so an SDK gives this one to the VM: `VM(content_type, seed=..)`. It is the same in each attempt.

    >>> from palqytun.frames import frame_of
    >>> seed_of_start(frame_of('Start id="abc" known_entries=1'))
    13436514500253700074
    >>> seed_of_start(frame_of("End"))
    Traceback (most recent call last):
    palqytun.errors.BadFrame: it isn't the frame of a Start
    """
    name, _, fields = line_of(frame).partition(" ")
    if name != "Start":
        raise BadFrame("it isn't the frame of a Start")
    found = _ID.match(f" {fields}")
    return int.from_bytes(hashlib.sha256(shown(found[1]) if found else b"").digest()[:8], "big")
