/** Limits of time of invocations: one that hasn't ended, or hasn't begun, in its time ends with code 408, whichever program has its handler. */

import { keep, leaves, send } from './delivery';
import { CANCEL, failure } from './frames';
import type { Statements } from './tables';

const MOST = 100; // that one transaction ends
const WHY = { unended: "it didn't end within its timeout", unbegun: "it didn't begin within its queue_timeout" } as const;

type Row = readonly [id: string, service: string, handler: string, key: string, exclusive: number, epoch: number, status: string, created: number];

/** Ends those whose time is over, and cancels the calls whose results they wait for. */
export async function endLate(to: Statements): Promise<void> {
  for (const name of ['unended', 'unbegun'] as const) {
    const rows = (await to.rows(name, { now: to.now, most: MOST })) as unknown as readonly Row[];
    for (const row of rows) await end(to, row, `timed out: ${WHY[name]}`);
    if (rows.length === MOST) to.isDue(to.now);
  }
}

async function end(to: Statements, [id, service, handler, key, exclusive, epoch, status, created]: Row, why: string): Promise<void> {
  const calls = await to.rows('calls', { id });
  for (const [call] of calls) await keep(to, String(call)); // before its row of `waiters` goes, which it takes over if it goes on
  const result = failure(408, why);
  await to.change('overdue', { id, now: to.now, result, failed: 408, error: `408 ${why}` });
  await leaves(to, { id, service, key: exclusive === 1 ? key : '' }, result);
  to.note({ event: 'failed', invocation: id, service, handler, attempt: epoch, error: `408 ${why}` });
  to.ended(id, { service, handler, outcome: 'failed', seconds: to.now - created });
  if (status === 'running') to.stops(id);
  to.say('ready'); // its key or its limit is free
  for (const [call] of calls) await send(to, String(call), CANCEL());
}
