"""A newsletter: a queue, limits of time, a digest by the clock, and subscriptions that go on for years.

    palqytun run python/examples/newsletter.py --db letters.db
    curl localhost:8080/Mail/send -d '"ann"'
"""

import time

from palqytun.runtime import App, Queue, Schedule, Service, ServiceContext, Workflow, WorkflowContext, heartbeat, last_progress, step

mail, subscription = Service("Mail"), Workflow("Subscription")


def smtp(key: str, to: str) -> str:
    """What the mail server does. It takes each key once."""
    return f"sent to {to}"


# At most ten letters at once, two of them to one domain, and a hundred a minute.
LETTERS = Queue("letters", concurrency=10, per_key=2, rate=(100, 60))


@mail.handler(queue=LETTERS, queue_timeout=600, attempt_timeout=20)
async def send(ctx: ServiceContext, to: str) -> str:
    return await ctx.run("smtp", smtp, ctx.uuid(), to)


@mail.handler(timeout=2)
async def confirm(ctx: ServiceContext, to: str) -> str:
    """Waits until the address is confirmed by whoever gets the mail with this id."""
    id, confirmed = ctx.awakeable(str)
    await ctx.call(send, f"{to}: {id}", priority=5)
    return await confirmed


@mail.handler()
async def digest(ctx: ServiceContext, to: str) -> str:
    """The letter of a day."""
    assert ctx.scheduled is not None
    return await ctx.call(send, f"{to}, on {ctx.scheduled:%Y-%m-%d}", queue_key=to.partition("@")[2])


@subscription.main()
async def goes_on(ctx: WorkflowContext, months: int) -> str:
    """A letter a month, for some months. The last two go out at once. The journal is that of one month."""
    ctx.set_attribute("reader", ctx.key)
    ctx.set_attribute("months", months)
    if months == 0:
        return f"the subscription of {ctx.key} has ended"
    await ctx.call(send, f"{ctx.key}, {months} to go")
    await ctx.sleep(30 * 86400 if months > 2 else 1)
    ctx.continue_as_new(months - 1)


@step(heartbeat=10)
def taken_in(names: list[str]) -> int:
    """Takes in a list of readers. An execution after a crash goes on where the one before was."""
    for number in range(last_progress(int) or 0, len(names)):
        time.sleep(1)
        heartbeat(number + 1)
    return len(names)


@mail.handler()
async def takes_in(ctx: ServiceContext, names: list[str]) -> int:
    return await ctx.run(taken_in, names)


DAILY = Schedule("daily", digest, "ann", cron="0 3 * * *", zone="Europe/Berlin", overlap="skip")
app = App(mail, subscription, schedules=[DAILY])
