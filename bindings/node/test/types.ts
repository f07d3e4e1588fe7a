// What a caller may write, and what the types refuse. It is compiled and not run.
import { CANCEL_HANDLE, Journal, JournalMismatch, Suspended, VM, allCompleted, firstCompleted, frames } from 'palqytun';
import type { Awaited, Handle, Input, Value } from 'palqytun';

const bytes = new Uint8Array(1);
const vm = new VM('application/vnd.restate.invocation.v7', { implicitCancellation: 'callsAndSends', fallbackRandomSeed: 7n });
const input: Input = vm.sysInput();
const slept: Handle = vm.sysSleep(1000n, { name: 'nap' });
const { invocationId, result, deadline } = vm.sysCallWithDeadline({ service: 'S', handler: 'h', headers: [['a', 'b']] }, bytes, 1000);
const awaited: Awaited = vm.doAwait(firstCompleted(slept, allCompleted(result, deadline), CANCEL_HANDLE));
if (awaited.kind === 'executeRun') vm.proposeRunCompletion(awaited.handle, bytes, { kind: 'fixedDelay', intervalMillis: 500, maxAttempts: 3 });
const value: Value | undefined = vm.takeNotification(invocationId);
if (value?.kind === 'failure') console.log(value.message, input.randomSeed + 1n);
vm.notifyError({ code: 418, message: 'no tea', behavior: 'pause' }, { type: 'sleep', index: 3 });
vm.sysAttachInvocation({ workflow: 'signup', key: 'ada' });
vm.sysWriteOutput({ code: 409, message: 'cancelled' });
const { rows } = new Journal([bytes]).store(7, vm.takeOutput());
rows.map((row) => new frames.Message(row.frame).text(0));
for (const { effect } of rows) if (effect?.kind === 'begin') console.log(effect.service, effect.timeMillis + 1n, effect.completes ?? 0);
const is = (error: unknown): boolean => error instanceof Suspended && error.code === 599;
is(null);
const said = (error: unknown): string => (error instanceof JournalMismatch ? error.inWords({ call: 'ctx.serviceCall' }) + error.difference?.field : '');
said(null);

// @ts-expect-error a time is no text
vm.sysSleep('x');
// @ts-expect-error there is no such option
new VM('x', { wait: 'never' });
// @ts-expect-error there is no such case
new VM('x', { journalReplay: 'never' });
// @ts-expect-error bytes are no text
vm.sysStateSet('key', 'value');
// @ts-expect-error a workflow has a key
vm.sysAttachInvocation({ workflow: 'signup' });
// @ts-expect-error a growing delay has a factor
vm.proposeRunCompletion(17, bytes, { kind: 'exponential', initialMillis: 1 });
