/** What a worker counts and measures, in Prometheus' text form, under the names that Python's workers have. */

import type { Ended } from './tables';

const SHORT = [0.001, 0.0025, 0.005, 0.01, 0.025, 0.05, 0.1, 0.25, 0.5, 1, 2.5, 5, 10, 30, 60];
const LONG = [0.01, 0.05, 0.1, 0.5, 1, 5, 10, 60, 300, 1800, 3600, 21_600, 86_400, 604_800];

type Labels = Readonly<Record<string, string>>;

function shown(labels: Labels): string {
  const escaped = (text: string): string => text.replace(/\\/g, '\\\\').replace(/\n/g, '\\n').replace(/"/g, '\\"');
  const all = Object.entries(labels).map(([name, value]) => `${name}="${escaped(value)}"`);
  return all.length === 0 ? '' : `{${all.join(',')}}`;
}

class Counter {
  readonly #values = new Map<string, number>();

  constructor(private readonly name: string, private readonly help: string) {}

  add(labels: Labels = {}, by = 1): void {
    const key = shown(labels);
    this.#values.set(key, (this.#values.get(key) ?? 0) + by);
  }

  *lines(): Iterable<string> {
    yield `# HELP ${this.name} ${this.help}`;
    yield `# TYPE ${this.name} counter`;
    for (const [labels, value] of this.#values) yield `${this.name}_total${labels} ${value}`;
  }
}

class Histogram {
  readonly #rows = new Map<string, { labels: Labels; counts: number[]; sum: number; count: number }>();

  constructor(private readonly name: string, private readonly help: string, private readonly bounds: readonly number[]) {}

  observe(value: number, labels: Labels = {}): void {
    const key = shown(labels);
    let row = this.#rows.get(key);
    if (row === undefined) this.#rows.set(key, (row = { labels, counts: this.bounds.map(() => 0), sum: 0, count: 0 }));
    const seconds = Math.max(0, value);
    this.bounds.forEach((bound, at) => {
      if (seconds <= bound) row!.counts[at]! += 1;
    });
    row.sum += seconds;
    row.count += 1;
  }

  *lines(): Iterable<string> {
    yield `# HELP ${this.name} ${this.help}`;
    yield `# TYPE ${this.name} histogram`;
    for (const { labels, counts, sum, count } of this.#rows.values()) {
      for (const [at, bound] of this.bounds.entries()) yield `${this.name}_bucket${shown({ ...labels, le: `${bound}` })} ${counts[at]}`;
      yield `${this.name}_bucket${shown({ ...labels, le: '+Inf' })} ${count}`;
      yield `${this.name}_sum${shown(labels)} ${sum}`;
      yield `${this.name}_count${shown(labels)} ${count}`;
    }
  }
}

/** What holds at this moment. */
export interface Moment {
  readonly live: number;
  readonly connections: number;
  readonly leaseAge: number;
}

/** The observations of one worker; times are in seconds. */
export class Meter {
  readonly #ended = new Counter('palqytun_ended', 'Invocations that have ended here.');
  readonly #lasted = new Histogram('palqytun_duration_seconds', "From an invocation's making to its end.", LONG);
  readonly #failed = new Counter('palqytun_failures', 'Attempts that failed or were lost, pauses, and ends by a failure.');
  readonly #stopped = new Counter('palqytun_handler_attempts', 'Attempts that have stopped, by how.');
  readonly #tried = new Histogram('palqytun_attempt_seconds', 'How long an attempt ran.', SHORT);
  readonly #late = new Histogram('palqytun_claim_delay_seconds', 'From when an invocation was due to its claim.', SHORT);
  readonly #lag = new Histogram('palqytun_timer_lag_seconds', 'From when a timer was due to when it fired.', SHORT);
  readonly #commits = new Histogram('palqytun_commit_seconds', 'A transaction.', SHORT);
  readonly #operations = new Counter('palqytun_operations', 'Operations that were committed.');
  readonly #counts = {
    attempts: new Counter('palqytun_attempts', 'Attempts since this worker began.'),
    sessions: new Counter('palqytun_sessions', 'Sessions with the database since this worker began.'),
    fenced: new Counter('palqytun_fenced', 'Attempts that have lost their lease since this worker began.'),
  };

  ended({ service, handler, outcome, seconds }: Ended): void {
    this.#ended.add({ service, handler, outcome });
    this.#lasted.observe(seconds, { service, handler });
  }

  failed(service: string, handler: string, event: string): void {
    this.#failed.add({ service, handler, event });
  }

  attempt(service: string, handler: string, how: string, seconds: number): void {
    this.#stopped.add({ service, handler, how });
    this.#tried.observe(seconds, { service, handler });
  }

  claimed(service: string, handler: string, late: number): void {
    this.#late.observe(late, { service, handler });
  }

  fired(late: number): void {
    this.#lag.observe(late);
  }

  committed(seconds: number): void {
    this.#operations.add();
    this.#commits.observe(seconds);
  }

  count(what: 'attempts' | 'sessions' | 'fenced'): void {
    this.#counts[what].add();
  }

  /** The numbers as Prometheus reads them. */
  text(now: Moment): string {
    const gauges: [string, string, number][] = [
      ['palqytun_live_attempts', 'Attempts of this worker.', now.live],
      ['palqytun_connections', 'Connections of this worker for transactions.', now.connections],
      ['palqytun_lease_age_seconds', "How long ago this worker's lease was kept.", now.leaseAge],
    ];
    const lines = gauges.flatMap(([name, help, value]) => [`# HELP ${name} ${help}`, `# TYPE ${name} gauge`, `${name} ${value}`]);
    const kept = [this.#ended, this.#lasted, this.#failed, this.#stopped, this.#tried, this.#late, this.#lag, this.#commits, this.#operations, ...Object.values(this.#counts)];
    return [...lines, ...kept.flatMap((it) => [...it.lines()]), ''].join('\n');
  }
}
