/** To which attempt, and to which run of it, some code belongs. */

import { AsyncLocalStorage } from 'node:async_hooks';

export interface Place {
  /** What each record of the log has of the attempt. */
  readonly fields: Readonly<Record<string, unknown>>;
  /** The name of the run that this code is executed for; undefined in a handler. */
  readonly run: string | undefined;
  /** The key of that run. */
  readonly key?: string;
}

export const within = new AsyncLocalStorage<Place>();
