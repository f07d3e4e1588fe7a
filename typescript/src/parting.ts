/** How connections end: in good order, or else after a moment. A socket that nobody ends keeps its process open. */

import type { Client } from 'pg';

const MOMENT = 1000; // milliseconds that a server may take to end a connection

/** Ends a connection, whose server may not reply. */
export async function part(client: Client): Promise<void> {
  const { stream } = client.connection;
  if (stream.destroyed) return;
  let timer: Timer | undefined;
  const late = new Promise<void>((done) => {
    timer = setTimeout(done, MOMENT);
  });
  await Promise.race([client.end().catch(() => undefined), late]);
  clearTimeout(timer);
  client.connection.stream.destroy(); // that of TLS may have come in the place of the first
}
