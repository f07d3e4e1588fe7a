"""What Python serves of the crash tests' handlers beside a worker of the SDK in TypeScript, which serves the others (typescript/test/crash_app.ts)."""

import crash_app
from palqytun.runtime import App

THEIRS = {"Load": ("tasks", "fails", "awaits", "patient", "fans"), "Counter": ("add",), "Line": ("push",), "Gate": ("main", "open", "look")}
for service in (crash_app.load, crash_app.counter, crash_app.line, crash_app.gate):
    for name in THEIRS[service.name]:
        del service.handlers[name]
app = App(*[it for it in crash_app.app.services.values() if it.handlers], schedules=list(crash_app.app.schedules.values()))
