// A server before that of PALQYTUN_TEST_POSTGRES, whose connections end, or get no reply, whenever a test wants.

import { connect, createServer } from 'node:net';
import type { Server, Socket } from 'node:net';
import { configOf } from '../database';
import { URL } from './cluster';

interface Pair {
  readonly client: Socket;
  readonly server: Socket;
}

export class Proxy {
  readonly #pairs = new Set<Pair>();
  readonly #server: Server;
  #holds = false;
  /** How many connections were made. */
  made = 0;
  /** New connections end at once. */
  refuses = false;
  /** A connection ends that asks for this, before the server hears of it. */
  endsAt: string | undefined;
  /** What the server's reply becomes. */
  replies: (data: Buffer, pair: Pair) => Buffer = (data) => data;

  private constructor() {
    this.#server = createServer((client) => this.#begins(client));
  }

  static async begun(): Promise<Proxy> {
    const found = new Proxy();
    await new Promise<void>((done) => found.#server.listen(0, '127.0.0.1', done));
    return found;
  }

  /** The URL of the database by this server. */
  get url(): string {
    const { user, database } = configOf(URL);
    return `postgresql://${String(user)}@127.0.0.1:${this.#server.address().port}/${String(database)}`;
  }

  /** The ports of the clients whose connections are open. */
  get ports(): number[] {
    return [...this.#pairs].map((it) => it.client.remotePort);
  }

  /** How many connections of clients are open. */
  get open(): number {
    return this.#pairs.size;
  }

  #begins(client: Socket): void {
    this.made += 1;
    if (this.refuses) return void client.destroy();
    const { host, port } = configOf(URL) as { host: string; port: string };
    const server = host.startsWith('/') ? connect(`${host}/.s.PGSQL.${port}`) : connect(Number(port), host);
    const pair = { client, server };
    this.#pairs.add(pair);
    const ends = (): void => {
      this.#pairs.delete(pair);
      client.destroy();
      server.destroy();
    };
    for (const it of [client, server]) it.on('error', ends).on('close', ends);
    client.on('data', (data) => {
      if (this.endsAt !== undefined && data.toString('latin1').includes(this.endsAt)) ends();
      else server.write(data);
    });
    server.on('data', (data) => void client.write(this.replies(data, pair)));
    if (this.#holds) this.#held(pair);
  }

  #held({ client, server }: Pair): void {
    client.pause();
    server.pause();
  }

  /** Nobody gets a reply from now on, as if the server's host stood still. */
  hold(): void {
    this.#holds = true;
    for (const it of this.#pairs) this.#held(it);
  }

  goOn(): void {
    this.#holds = false;
    for (const { client, server } of this.#pairs) {
      client.resume();
      server.resume();
    }
  }

  /** Ends all connections. */
  cut(): void {
    for (const { client } of this.#pairs) client.destroy();
  }

  end(): void {
    this.cut();
    this.#server.close();
  }
}
