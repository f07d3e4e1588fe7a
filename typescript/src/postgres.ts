/** How a worker and a client get to a PostgreSQL database: a few connections, one on which words are heard, and a thread that keeps the lease. */

import { Worker as Thread } from 'node:worker_threads';
import type { BeatsData, BeatsWord } from './beats';
import { Database } from './database';
import { said } from './errors';
import { Hearing } from './hearing';
import type { Log } from './log';
import type { Ends, Place, Store } from './tables';

const SHORTEST = 100; // milliseconds between connections

/** Whose lease is kept, and how. Times are in milliseconds. */
export type Beating = Omit<BeatsData, 'url' | 'worker'>;

export class Postgres implements Place {
  readonly again = SHORTEST;

  constructor(private readonly url: string, private readonly log: Log, private readonly beating?: Beating) {}

  open(connections: number): Promise<Store> {
    return Database.open(this.url, connections, this.log, this.beating !== undefined);
  }

  hears(own: string, store: Store, heard: (word: string) => void): Promise<Ends> {
    return Hearing.begun(this.url, own, () => (store as Database).processes, heard, this.log);
  }

  beats(worker: string, kept: () => void): Ends {
    if (this.beating === undefined) throw new Error('a client has no lease');
    return new Beats({ url: this.url, worker, ...this.beating }, kept, this.log);
  }
}

/** The thread of beats. If it ends by itself another one begins: without a lease others claim what the worker is doing. */
export class Beats implements Ends {
  #thread: Thread;
  #isOver = false;

  constructor(private readonly data: BeatsData, private readonly kept: () => void, private readonly log: Log) {
    this.#thread = this.#begun();
  }

  async end(): Promise<void> {
    this.#isOver = true;
    this.#thread.postMessage('end');
  }

  #begun(): Thread {
    const thread = new Thread(`${__dirname}/beats.js`, { workerData: this.data });
    thread.on('message', (message) => {
      const word = message as BeatsWord;
      if ('beat' in word) this.kept();
      if ('failed' in word) this.log.warning(`a beat wasn't stored: ${word.failed}`);
    });
    thread.on('error', (error) => this.log.error(`the thread of beats has ended, and another one begins: ${said(error)}`));
    thread.on('exit', () => this.#exited());
    thread.unref();
    return thread;
  }

  #exited(): void {
    if (this.#isOver) return;
    setTimeout(() => {
      if (!this.#isOver) this.#thread = this.#begun();
    }, SHORTEST).unref();
  }
}
