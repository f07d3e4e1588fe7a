// What the SDK uses of Node and of node-pg. Debian has no @types/node, so the few declarations stand here.

declare module 'node:async_hooks' {
  export class AsyncLocalStorage<T> {
    run<R>(store: T, callback: () => R): R;
    getStore(): T | undefined;
  }
}

declare module 'node:crypto' {
  export function randomBytes(size: number): Buffer;
  interface Cipher {
    setAutoPadding(pads: boolean): Cipher;
    update(data: Uint8Array): Buffer;
    final(): Buffer;
  }
  export function createCipheriv(name: string, key: Uint8Array, iv: Uint8Array): Cipher;
  export function createDecipheriv(name: string, key: Uint8Array, iv: Uint8Array): Cipher;
  export function timingSafeEqual(one: Uint8Array, other: Uint8Array): boolean;
  export function createHash(name: 'sha256'): { update(data: string): void; digest(form: 'hex'): string };
}

declare module 'node:http' {
  interface ServerResponse {
    writeHead(status: number, headers?: Record<string, string>): void;
    end(body?: string): void;
  }
  interface Server {
    listen(port: number, host: string, done: () => void): void;
    address(): { port: number };
    close(): void;
    closeAllConnections(): void;
    on(event: 'error', heard: (error: Error) => void): void;
  }
  export function createServer(serves: (request: { url?: string }, response: ServerResponse) => void): Server;
}

declare module 'node:util' {
  export function inspect(value: unknown, how: { depth: number; sorted: boolean; breakLength: number }): string;
}

declare module 'node:worker_threads' {
  export class Worker {
    constructor(file: string, options: { workerData: unknown });
    on(event: 'message', heard: (message: unknown) => void): void;
    on(event: 'error', heard: (error: Error) => void): void;
    on(event: 'exit', heard: () => void): void;
    postMessage(message: unknown): void;
    terminate(): Promise<number>;
    unref(): void;
  }
  export const workerData: unknown;
  export const parentPort: { on(event: 'message', heard: (message: unknown) => void): void; postMessage(message: unknown): void; close(): void } | null;
}

declare module 'pg' {
  export interface Config {
    [name: string]: unknown;
  }
  export interface Result {
    rows: unknown[][];
    rowCount: number | null;
  }
  export interface Query {
    text: string;
    values?: unknown[];
    name?: string;
    rowMode?: 'array';
  }
  export class Client {
    constructor(config: Config);
    processID: number | null;
    readonly connection: { readonly stream: { readonly destroyed: boolean; destroy(error?: Error): void } };
    connect(): Promise<void>;
    query(query: Query | string): Promise<Result>;
    end(): Promise<void>;
    on(event: 'notification', heard: (it: { processId: number; payload?: string }) => void): void;
    on(event: 'error', heard: (error: Error) => void): void;
    on(event: 'end', heard: () => void): void;
  }
  export const types: { getTypeParser(oid: number, format?: string): (text: string) => unknown };
}

declare module 'pg-connection-string' {
  export function parse(url: string): Record<string, unknown>;
}

interface Buffer extends Uint8Array {
  subarray(from?: number, to?: number): Buffer;
  equals(other: Uint8Array): boolean;
  toString(encoding?: string): string;
  readUInt16BE(at: number): number;
  readUInt32BE(at: number): number;
  readBigUInt64BE(at: number): bigint;
  writeUInt32BE(value: number, at: number): number;
}
declare const Buffer: {
  from(data: string, encoding?: string): Buffer;
  from(data: ArrayBuffer, offset?: number, length?: number): Buffer;
  from(data: ArrayLike<number>): Buffer;
  alloc(size: number): Buffer;
  concat(parts: readonly Uint8Array[]): Buffer;
  byteLength(text: string): number;
  compare(one: Uint8Array, other: Uint8Array): number;
};

declare class TextDecoder {
  constructor(encoding: string, options?: { fatal?: boolean; ignoreBOM?: boolean });
  decode(data: Uint8Array): string;
}

declare class AbortSignal {
  readonly aborted: boolean;
}
declare class AbortController {
  readonly signal: AbortSignal;
  abort(reason?: unknown): void;
}

interface Timer {
  unref(): Timer;
}
declare function setTimeout(call: () => void, milliseconds: number): Timer;
declare function clearTimeout(timer: Timer | undefined): void;
declare function setInterval(call: () => void, milliseconds: number): Timer;
declare function clearInterval(timer: Timer | undefined): void;
declare function setImmediate(call: () => void): void;
declare const performance: { now(): number };
declare const process: {
  readonly pid: number;
  readonly execPath: string;
  readonly env: Record<string, string | undefined>;
  readonly stderr: { write(text: string): void };
  exitCode: number | undefined;
  on(event: string, heard: (...given: never[]) => void): void;
  off(event: string, heard: (...given: never[]) => void): void;
  exit(status?: number): never;
  kill(pid: number, signal: string): void;
};
declare const __dirname: string;
