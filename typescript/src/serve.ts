/** A worker as a program: it ends with SIGTERM, and errors that belong to nobody don't end it. */

import { createServer } from 'node:http';
import { Unsuitable, said } from './errors';
import { Log } from './log';
import { servicesOf } from './services';
import { GRACE, Worker } from './worker';
import type { WorkerOptions } from './worker';

const LAST = 1000; // milliseconds that runs have which are still executed at the end

export interface ServeOptions extends WorkerOptions {
  /** A port on the loopback whose /metrics has the numbers for Prometheus; 0 is a free one. */
  metricsPort?: number;
}

/**
 * Runs a worker until SIGTERM or SIGINT; a second one ends the process at once. What handlers and effects throw where nobody awaits it is logged, and the
 * worker goes on. A database that can't be used as it is set up is one line, and status 1. Runs that are still executed after the grace keep the process
 * no longer than a second.
 */
export async function serve(options: ServeOptions): Promise<void> {
  const log = options.log instanceof Log ? options.log : new Log(options.log);
  const worker = new Worker({ ...options, log });
  const loose = (what: string) => (error: unknown): void => log.error(`${what}, and the worker goes on: ${said(error)}`);
  const [rejected, thrown] = [loose('a promise was rejected that nobody awaits'), loose('an error was thrown that nobody catches')];
  let isAsked = false;
  const stop = (): void => {
    if (isAsked) process.exit(130);
    isAsked = true;
    log.info(`the worker stops, and runs that are executed may end within ${options.grace ?? GRACE} ms; a second signal ends it at once`);
    worker.stop();
  };
  process.on('unhandledRejection', rejected as () => void);
  process.on('uncaughtException', thrown as () => void);
  process.on('SIGTERM', stop);
  process.on('SIGINT', stop);
  void worker.isOpen.then(() => log.info(`the worker serves ${[...servicesOf(options.services).keys()].join(', ')}; SIGTERM stops it`));
  const server = options.metricsPort === undefined ? undefined : numbers(worker, options.metricsPort, log);
  try {
    await worker.run();
  } catch (error) {
    log.error(error instanceof Unsuitable ? error.message : said(error));
    process.exitCode = 1;
  } finally {
    server?.close();
    server?.closeAllConnections();
    process.off('SIGTERM', stop);
    process.off('SIGINT', stop);
    process.off('unhandledRejection', rejected as () => void);
    process.off('uncaughtException', thrown as () => void);
    if (worker.executing > 0) {
      log.warning(`runs that are still executed are left: ${worker.executing}`);
      setTimeout(() => process.exit(), LAST).unref();
    }
  }
}

function numbers(worker: Worker, port: number, log: Log): ReturnType<typeof createServer> {
  const server = createServer((request, response) => {
    const isKnown = request.url === '/metrics';
    response.writeHead(isKnown ? 200 : 404, { 'content-type': 'text/plain; version=0.0.4' });
    response.end(isKnown ? worker.metrics() : 'there is /metrics\n');
  });
  server.on('error', (error) => log.error(`the numbers can't be served: ${said(error)}`));
  server.listen(port, '127.0.0.1', () => log.info(`the numbers are at http://127.0.0.1:${server.address().port}/metrics`));
  return server;
}
