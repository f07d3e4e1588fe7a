"""The durable runtime: handlers that survive crashes, over the invocation VM, with SQLite or PostgreSQL.

docs/RUNTIME.md is the guide, docs/OPERATING.md is for operators, and docs/internals/RUNTIME-DESIGN.md says what is proved and what is tested.
"""

from .client import Client, Invocation
from .codec import Codec, JsonCodec
from .context import Call, Context
from .contexts import ObjectContext, Promise, ServiceContext, SharedObjectContext, SharedWorkflowContext, WorkflowContext
from .desk import Unavailable
from .durable import Durable, NotDurable, gather, select, wait_any
from .engine import Engine
from .heartbeats import GivenUp, heartbeat, last_progress
from .names import BadName
from .queues import Queue
from .schedules import Schedule
from .sealing import Sealed
from .services import App, Cancelled, Handler, IdempotencyConflict, Retry, Service, TerminalError, TimedOut, VirtualObject, Workflow
from .steps import Step, step
from .transactions import Transaction

__all__ = [
    "App",
    "BadName",
    "Call",
    "Cancelled",
    "Client",
    "Codec",
    "Context",
    "Durable",
    "Engine",
    "GivenUp",
    "Handler",
    "IdempotencyConflict",
    "Invocation",
    "JsonCodec",
    "NotDurable",
    "ObjectContext",
    "Promise",
    "Queue",
    "Retry",
    "Schedule",
    "Sealed",
    "Service",
    "ServiceContext",
    "SharedObjectContext",
    "SharedWorkflowContext",
    "Step",
    "TerminalError",
    "TimedOut",
    "Transaction",
    "Unavailable",
    "VirtualObject",
    "Workflow",
    "WorkflowContext",
    "gather",
    "heartbeat",
    "last_progress",
    "select",
    "step",
    "wait_any",
]
