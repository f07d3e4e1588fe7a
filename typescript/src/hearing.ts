/** The words of other workers. */

import { Client as Connection } from 'pg';
import { CHANNEL, channelOf, configOf } from './database';
import { said } from './errors';
import type { Log } from './log';
import { part } from './parting';
import { Lost } from './tables';
import type { Ends } from './tables';

const AGAIN = 500; // milliseconds until a connection that is lost is made again

function after(milliseconds: number): Promise<void> {
  return new Promise((done) => setTimeout(done, milliseconds));
}

/** A connection that hears words. A lost one is made again. */
export class Hearing implements Ends {
  #client: Connection | undefined;
  #isOver = false;

  private constructor(
    private readonly url: string,
    private readonly channels: readonly string[],
    private readonly own: () => ReadonlySet<number | null>,
    private readonly heard: (word: string) => void,
    private readonly log: Log,
  ) {}

  /** `processes` are the server's own, whose words are known here. */
  static async begun(url: string, worker: string, processes: () => ReadonlySet<number | null>, heard: (word: string) => void, log: Log): Promise<Hearing> {
    const found = new Hearing(url, [CHANNEL, channelOf(worker)], processes, heard, log);
    try {
      await found.#listen();
    } catch (error) {
      throw new Lost(said(error));
    }
    return found;
  }

  /** Makes a connection that hears. One that comes too late, or that isn't whole, is ended: nobody else would. */
  async #listen(): Promise<void> {
    const client = new Connection(configOf(this.url));
    let isBroken = false;
    const lost = (): void => {
      isBroken = true;
      if (this.#client !== client) return; // whoever makes it sees that
      this.#client = undefined;
      this.log.warning('notifications have ended, and are asked for again');
      void this.#again();
    };
    client.on('error', lost);
    client.on('end', lost);
    client.on('notification', (it) => {
      if (!this.own().has(it.processId)) this.heard(it.payload ?? '');
    });
    try {
      await client.connect();
      for (const channel of this.channels) await client.query(`LISTEN "${channel}"`);
      if (isBroken) throw new Error('the connection has ended');
    } catch (error) {
      void part(client);
      throw error;
    }
    if (this.#isOver) void part(client);
    else this.#client = client;
  }

  async #again(): Promise<void> {
    while (!this.#isOver && this.#client === undefined) {
      await after(AGAIN);
      if (this.#isOver) return;
      try {
        await this.#listen();
      } catch {
        continue; // it is tried again
      }
      if (!this.#isOver) this.heard('ready');
    }
  }

  async end(): Promise<void> {
    this.#isOver = true;
    const client = this.#client;
    this.#client = undefined;
    if (client !== undefined) await part(client);
  }
}
