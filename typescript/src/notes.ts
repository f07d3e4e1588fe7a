/** What the log says of invocations, once a transaction is committed: each is one line, and its parts are fields of the record too. */

import type { Fields, Level, Log } from './log';

export type Event = 'attempt failed' | 'attempt lost' | 'paused' | 'failed' | 'unserved';

/** Something that happened to an invocation. */
export interface Note {
  readonly event: Event;
  readonly invocation: string;
  readonly service: string;
  readonly handler: string;
  /** The number of its attempt, from 1; 0 if none has begun. */
  readonly attempt: number;
  readonly error: string;
  /** The line of the handler's code, as `shop.js:95`. */
  readonly where?: string | undefined;
  /** The run that failed. */
  readonly run?: string | undefined;
  /** Seconds until the next attempt. Without it none begins by itself. */
  readonly delay?: number | undefined;
  readonly traceId?: string | undefined;
}

const LEVELS: Readonly<Record<Event, Level>> = { 'attempt failed': 'warning', 'attempt lost': 'warning', paused: 'error', failed: 'info', unserved: 'warning' };

function what({ event, attempt, run, delay }: Note): string {
  const within = run === undefined ? '' : ` in the run '${run}'`;
  const next = delay === undefined ? '' : delay > 0 ? `, next in ${delay.toFixed(2)} s` : ', next at once';
  switch (event) {
    case 'attempt failed': return `attempt ${attempt} failed${within}${next}`;
    case 'attempt lost': return `attempt ${attempt} was lost${next}`;
    case 'paused': return attempt > 0 ? `attempt ${attempt} failed${within}, and it is paused until it is resumed` : 'is paused until it is resumed';
    case 'failed': return 'failed';
    case 'unserved': return 'waits for a worker that serves it';
  } // prettier-ignore
}

function lineOf(it: Note): string {
  const where = it.where === undefined ? '' : ` (${it.where})`;
  return `${it.service}/${it.handler} ${it.invocation} ${what(it)}: ${it.error.split('\n', 1)[0]}${where}`;
}

/** Logs a note. */
export function tell(log: Log, it: Note): void {
  const { event, invocation, service, handler, attempt, error, where, run, delay, traceId } = it;
  const some: Fields = { where, run, delay, trace_id: traceId };
  const known = Object.fromEntries(Object.entries(some).filter(([, value]) => value !== undefined));
  log[LEVELS[event]](lineOf(it), { event, invocation, handler: `${service}/${handler}`, attempt, error, ...known });
}
