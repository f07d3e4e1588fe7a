/** Durable handlers in TypeScript on PostgreSQL. README.md has an example, and docs/TYPESCRIPT.md the guide. */

export { Client, Sent } from './client';
export type { ClientCall, ClientOptions } from './client';
export { Context, ObjectContext, ServiceContext, SharedObjectContext, SharedWorkflowContext, WorkflowContext } from './context';
export type { CallOptions, ReplayLog, Run, RunOptions, SendOptions, WorkflowPromise } from './context';
export { Call, Durable, all, allSettled, any, race, select } from './durable';
export { BadName, BadValue, Cancelled, NotDurable, OutsideHandler, TerminalError, TimedOut, Unavailable, Unsuitable } from './errors';
export { GivenUp } from './heartbeats';
export { Log } from './log';
export type { Fields, Level, LogOptions } from './log';
export { Queue } from './queues';
export type { QueueOptions } from './queues';
export { Random } from './random';
export { Sealed, Unreadable } from './sealing';
export type { Codec } from './sealing';
export { serve } from './serve';
export type { ServeOptions } from './serve';
export { handler, main, object, service, shared, workflow } from './services';
export type { AnyService, Handler, HandlerOptions, Retry, Service } from './services';
export { VERSION as PROTOCOL_VERSION } from './statements';
export type { Parse } from './values';
export { Worker } from './worker';
export type { WorkerOptions } from './worker';
