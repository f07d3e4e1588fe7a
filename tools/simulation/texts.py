"""Texts as `vmrounds` reads and prints them."""
import base64
import re

NOTIFICATION = re.compile(r"Notification id=(completion|signal|name)\((.*?)\) result=(.*)$")


def quoted(text: str) -> str:
    """A text in quotes. The simulation uses letters and digits alone."""
    return f'"{text}"'


def awakeable_id(invocation: str, signal: int) -> str:
    """The id by which others complete the awakeable of this signal."""
    named = invocation.encode() + signal.to_bytes(4, "big")
    return "sign_1" + base64.urlsafe_b64encode(named).decode().rstrip("=")


def notification_of(entry: str) -> tuple[str, str] | None:
    """The id and the result of an entry that is a notification, as they are printed."""
    found = NOTIFICATION.match(entry)
    return (f"{found[1]}({found[2]})", found[3]) if found else None


def taken(result: str | None) -> str:
    """A result, as the answer to a take prints it."""
    if result is None:
        return "none"
    if result == "void":
        return "void"
    case, held = result.split("(", 1)
    held = held[:-1]
    if case == "value":
        return f"success {held}"
    if case == "invocation_id":
        return f"invocation {held}"
    if case == "state_keys":
        return f"keys {held.replace(',', '')}"
    code, message = held.removeprefix("code=").split(" message=")
    return f"failure {code} {message}"
