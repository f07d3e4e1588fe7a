/** What invocations get: notifications in their inboxes, and the results of others. */

import { frames } from 'palqytun';
import { isCancel } from './frames';
import type { Statements } from './tables';

/** Puts a notification into an invocation's inbox, if it has one. What is for whichever goes on in its place is sent. */
export async function deliver(to: Statements, invocation: string, frame: Uint8Array): Promise<boolean> {
  if ((await to.change('deliver', { invocation, frame })) === 0) return false;
  await hasCome(to, invocation, frame);
  return true;
}

/** An inbox has got a notification. */
async function hasCome(to: Statements, invocation: string, frame: Uint8Array): Promise<void> {
  if (isCancel(frame)) await to.change('reach', { id: invocation, now: to.now });
  to.touch(invocation);
}

/** The invocation that goes on instead of another one, or else that one. */
export async function newest(to: Statements, invocation: string): Promise<string> {
  return String((await to.rows('newest', { invocation }))[0]?.[0]);
}

/** Until the commit no invocation goes on in the place of this one. */
export async function keep(to: Statements, invocation: string): Promise<void> {
  await to.rows('keep', { invocation });
}

/** Puts a signal or a cancellation into the inbox of an invocation, or of the one that goes on in its place. */
export async function send(to: Statements, invocation: string, frame: Uint8Array): Promise<void> {
  await keep(to, invocation);
  for (const [id] of await to.rows('send', { invocation, frame })) await hasCome(to, String(id), frame);
}

/** One that has ended. */
export interface Gone {
  readonly id: string;
  readonly service: string;
  readonly key: string;
}

/** Gives the result of one that has ended to those that wait, and takes away the rest of it. Its key is free. */
export async function leaves(to: Statements, { id, service, key }: Gone, result: Uint8Array): Promise<void> {
  for (const [waiter, completes] of await to.rows('ended', { id })) {
    await deliver(to, String(waiter), frames.completion(completes as number, result));
  }
  await to.change('gone', { id, service, key });
}
