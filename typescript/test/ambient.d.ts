// What the tests use of Node beside what the SDK does (src/ambient.d.ts).

declare module 'node:assert/strict' {
  const assert: {
    (holds: unknown, message?: string): asserts holds;
    equal(found: unknown, wanted: unknown, message?: string): void;
    notEqual(found: unknown, unwanted: unknown, message?: string): void;
    deepEqual(found: unknown, wanted: unknown, message?: string): void;
    match(found: string, wanted: RegExp, message?: string): void;
    throws(does: () => unknown, wanted: RegExp | object, message?: string): void;
    rejects(does: PromiseLike<unknown> | (() => PromiseLike<unknown>), wanted: RegExp | object, message?: string): Promise<void>;
  };
  export default assert;
}

declare module 'node:test' {
  export function test(name: string, does: () => unknown): Promise<void>;
  export function test(name: string, options: { timeout?: number }, does: () => unknown): Promise<void>;
  export function before(does: () => unknown): void;
  export function after(does: () => unknown): void;
}

declare module 'node:fs' {
  export function appendFileSync(file: string, text: string): void;
  export function readFileSync(file: string, encoding: 'utf8'): string;
}

declare module 'node:net' {
  interface Socket {
    readonly remotePort: number;
    on(event: 'data', heard: (data: Buffer) => void): Socket;
    on(event: 'error' | 'close', heard: () => void): Socket;
    write(data: Uint8Array): boolean;
    pause(): void;
    resume(): void;
    destroy(): void;
  }
  interface Server {
    listen(port: number, host: string, done: () => void): void;
    address(): { port: number };
    close(): void;
  }
  export function connect(path: string): Socket;
  export function connect(port: number, host: string): Socket;
  export function createServer(serves: (client: Socket) => void): Server;
}

declare module 'node:child_process' {
  interface ChildProcess {
    readonly stderr: { on(event: 'data', heard: (data: Buffer) => void): void };
    on(event: 'close', heard: (status: number | null) => void): void;
    kill(signal: string): boolean;
  }
  export function spawn(command: string, words: readonly string[], options: { env: Record<string, string | undefined>; stdio: readonly string[] }): ChildProcess;
}

declare function fetch(url: string): Promise<{ readonly status: number; text(): Promise<string> }>;
