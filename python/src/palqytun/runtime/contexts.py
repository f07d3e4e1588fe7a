"""The contexts of each kind of handler: a call that a kind doesn't have is an error of types, and ends an invocation that makes it anyhow."""

from __future__ import annotations

from typing import Any, Generic, TypeVar, cast, overload

from .codec import encoded
from .context import Context
from .durable import Durable, Leaf
from .names import check_name
from .services import Service, TerminalError

T = TypeVar("T")


class Promise(Generic[T]):
    """A promise of the workflow."""

    def __init__(self, context: Context, name: str, kind: Any):
        self._context, self._name, self._read = context, name, context._result(kind)

    def value(self) -> Durable[T]:
        """Its value, once it is completed."""
        return Leaf(self._context._vm_call("sys_get_promise", self._name), self._read)

    def peek(self) -> Durable[T | None]:
        """Its value, or none while it isn't completed."""
        return Leaf(self._context._vm_call("sys_peek_promise", self._name), self._read)

    def resolve(self, value: Any) -> Durable[None]:
        """Completes it. Awaited, it raises a `TerminalError` with code 409 if it was completed before."""
        given = self._context._given(value)
        return Leaf(self._context._vm_call("sys_complete_promise", self._name, given), lambda came: None)

    def reject(self, message: str, code: int = 500) -> Durable[None]:
        return self.resolve(TerminalError(message, code))


class ServiceContext(Context):
    """That of a `Service`'s handlers: they have no key."""


class SharedObjectContext(Context):
    """That of a `VirtualObject`'s shared handlers: they read the state of their key."""

    @overload
    def get(self, name: str, kind: type[T]) -> Durable[T | None]: ...
    @overload
    def get(self, name: str, kind: Any = Any) -> Durable[Any]: ...
    def get(self, name: str, kind: Any = Any) -> Durable[Any]:
        """The value of a state key, or none."""
        return Leaf(self._vm_call("sys_state_get", name), self._reader(kind))

    def keys(self) -> Durable[list[str]]:
        """The names of the state's keys."""
        return Leaf(self._vm_call("sys_state_get_keys"), lambda came: cast("list[str]", came))


class ObjectContext(SharedObjectContext):
    """That of a `VirtualObject`'s handlers, of which one runs at a time: they change the state of their key."""

    def set(self, name: str, value: Any) -> None:
        check_name("the name of a state", name)
        self._vm_call("sys_state_set", name, encoded(self._codec, value))

    def clear(self, name: str) -> None:
        self._vm_call("sys_state_clear", name)

    def clear_all(self) -> None:
        self._vm_call("sys_state_clear_all")


class SharedWorkflowContext(SharedObjectContext):
    """That of the handlers beside a workflow's `main`: they read its state, and complete its promises."""

    @overload
    def promise(self, name: str, kind: type[T]) -> Promise[T]: ...
    @overload
    def promise(self, name: str, kind: Any = Any) -> Promise[Any]: ...
    def promise(self, name: str, kind: Any = Any) -> Promise[Any]:
        """A promise of this workflow's key."""
        check_name("the name of a promise", name)
        return Promise(self, name, kind)


class WorkflowContext(SharedWorkflowContext, ObjectContext):
    """That of a workflow's `main`."""


def kind_of(service: Service, exclusive: bool) -> type[Context]:
    """The context that a handler has."""
    if service.workflow:
        return WorkflowContext if exclusive else SharedWorkflowContext
    if service.keyed:
        return ObjectContext if exclusive else SharedObjectContext
    return ServiceContext
