/** What a handler awaits, and the combinators over it. Each is a node of the VM's await trees. */

import { allCompleted, allSucceededOrFirstFailed, firstCompleted, firstSucceededOrAllFailed } from 'palqytun';
import type { Future, Handle, Value } from 'palqytun';
import { TerminalError } from './errors';

/** Who awaits a durable that is pending. */
export interface Waiter {
  readonly durable: Durable<unknown>;
  /** The durable has an outcome: it is handed on. */
  settle(): void;
  /** What was awaited is given up, with this error. */
  reject(error: Error): void;
}

/** Whose durables these are: the attempt keeps who waits. */
export interface Scope {
  waits(waiter: Waiter): void;
  /** It is part of what may be awaited. */
  uses(durable: Durable<unknown>): void;
}

/** Something that the journal gives. `await` gives its result, or throws its failure. It may be awaited more than once. */
export abstract class Durable<T> implements PromiseLike<T> {
  constructor(protected readonly scope: Scope | undefined) {}

  /** Whether it has succeeded; undefined while it is pending. */
  abstract outcome(): boolean | undefined;
  abstract result(): T;
  /** What is left of it for the VM to await, while it is pending. */
  abstract tree(): Handle | Future;
  /** The handles in it that are pending. */
  abstract leaves(): Iterable<Leaf<unknown>>;

  then<R = T, E = never>(
    onResult?: ((value: T) => R | PromiseLike<R>) | null,
    onFailure?: ((reason: unknown) => E | PromiseLike<E>) | null,
  ): Promise<R | E> {
    const came = new Promise<T>((resolve, reject) => {
      const settle = (): void => {
        try {
          resolve(this.result());
        } catch (failure) {
          reject(failure);
        }
      };
      if (this.scope === undefined) settle();
      else this.scope.waits({ durable: this, settle, reject });
    });
    return came.then(onResult, onFailure);
  }

  catch<E>(onFailure: (reason: unknown) => E | PromiseLike<E>): Promise<T | E> {
    return this.then(undefined, onFailure);
  }
}

/** A handle of the VM. `read` makes its result of what the VM has for it. */
export class Leaf<T> extends Durable<T> {
  came: Value | undefined;

  constructor(scope: Scope, readonly handle: Handle, private readonly read: (came: Value) => T) {
    super(scope);
  }

  outcome(): boolean | undefined {
    return this.came === undefined ? undefined : this.came.kind !== 'failure';
  }

  result(): T {
    const came = this.came;
    if (came === undefined) throw new Error('a durable that is pending has no result');
    if (came.kind === 'failure') throw new TerminalError(came.message, came.code, came.metadata);
    return this.read(came);
  }

  tree(): Handle | Future {
    return this.handle;
  }

  *leaves(): Iterable<Leaf<unknown>> {
    if (this.came === undefined) yield this;
  }
}

/** The result of a call, and the id of what was called. */
export class Call<T> extends Leaf<T> {
  readonly invocationId: Durable<string>;

  constructor(scope: Scope, id: Handle, handle: Handle, read: (came: Value) => T) {
    super(scope, handle, read);
    this.invocationId = new Leaf(scope, id, idOf);
  }
}

/** The id that a call has made. */
export function idOf(came: Value): string {
  if (came.kind !== 'invocationId') throw new Error(`an invocation's id came as ${came.kind}`);
  return came.id;
}

type Make = (...children: (Handle | Future)[]) => Future;

abstract class Over<T> extends Durable<T> {
  readonly children: readonly Durable<unknown>[];
  protected abstract readonly make: Make;

  constructor(name: string, children: readonly Durable<unknown>[]) {
    const given = Array.isArray(children) ? (children as readonly Durable<unknown>[]) : undefined;
    if (given === undefined) throw new TypeError(`${name} takes an array of what the context gives`);
    for (const it of given) {
      if (!(it instanceof Durable)) throw new TypeError(`${name} takes what the context gives, and not ${it === null ? 'null' : typeof it}: Promise.${name} combines promises of your own`);
    }
    super(given.find((it) => it['scope'] !== undefined)?.['scope']);
    this.children = [...given];
    for (const it of given) it['scope']?.uses(it);
  }

  tree(): Future {
    return this.make(...this.children.filter((it) => it.outcome() === undefined).map((it) => it.tree()));
  }

  *leaves(): Iterable<Leaf<unknown>> {
    for (const it of this.children) if (it.outcome() === undefined) yield* it.leaves();
  }

  protected get outcomes(): (boolean | undefined)[] {
    return this.children.map((it) => it.outcome());
  }
}

class All extends Over<unknown[]> {
  protected readonly make = allSucceededOrFirstFailed;

  outcome(): boolean | undefined {
    const came = this.outcomes;
    return came.includes(false) ? false : came.includes(undefined) ? undefined : true;
  }

  result(): unknown[] {
    this.children.find((it) => it.outcome() === false)?.result();
    return this.children.map((it) => it.result());
  }
}

class Settled extends Over<PromiseSettledResult<unknown>[]> {
  protected readonly make = allCompleted;

  outcome(): boolean | undefined {
    return this.outcomes.includes(undefined) ? undefined : true;
  }

  result(): PromiseSettledResult<unknown>[] {
    return this.children.map((it) => {
      try {
        return { status: 'fulfilled', value: it.result() };
      } catch (reason) {
        return { status: 'rejected', reason };
      }
    });
  }
}

class Select extends Over<[number, unknown]> {
  protected readonly make = firstCompleted;

  private get first(): number {
    return this.outcomes.findIndex((it) => it !== undefined);
  }

  outcome(): boolean | undefined {
    return this.children[this.first]?.outcome();
  }

  result(): [number, unknown] {
    return [this.first, this.children[this.first]?.result()];
  }
}

class Race extends Over<unknown> {
  protected readonly make = firstCompleted;

  outcome(): boolean | undefined {
    return this.outcomes.find((it) => it !== undefined);
  }

  result(): unknown {
    return this.children.find((it) => it.outcome() !== undefined)?.result();
  }
}

class Any extends Over<unknown> {
  protected readonly make = firstSucceededOrAllFailed;

  outcome(): boolean | undefined {
    const came = this.outcomes;
    return came.includes(true) ? true : came.includes(undefined) ? undefined : false;
  }

  result(): unknown {
    return (this.children.find((it) => it.outcome() === true) ?? this.children[this.children.length - 1])?.result();
  }
}

type ResultOf<D> = D extends Durable<infer T> ? T : never;
type Results<D extends readonly Durable<unknown>[]> = { -readonly [N in keyof D]: ResultOf<D[N]> };
type SettledResults<D extends readonly Durable<unknown>[]> = { -readonly [N in keyof D]: PromiseSettledResult<ResultOf<D[N]>> };
type Some = readonly Durable<unknown>[];

function some<D extends Some>(name: string, children: D): D {
  if (Array.isArray(children) && children.length === 0) throw new TypeError(`${name} of nothing would never end`);
  return children;
}

/** All results, in order; the first failure is thrown. Like `Promise.all`, as one await of the VM. */
export function all<D extends Some | []>(children: D): Durable<Results<D>> {
  return new All('all', children) as unknown as Durable<Results<D>>;
}

/** How each has ended, in order. Like `Promise.allSettled`. */
export function allSettled<D extends Some | []>(children: D): Durable<SettledResults<D>> {
  return new Settled('allSettled', children) as unknown as Durable<SettledResults<D>>;
}

/** The result, or the failure, of the first that has an outcome. Like `Promise.race`. */
export function race<D extends Some>(children: D): Durable<ResultOf<D[number]>> {
  return new Race('race', some('race', children)) as Durable<ResultOf<D[number]>>;
}

/** The result of the first that succeeds. If all fail, the failure of the last is thrown. */
export function any<D extends Some>(children: D): Durable<ResultOf<D[number]>> {
  return new Any('any', some('any', children)) as Durable<ResultOf<D[number]>>;
}

/** The number, from 0, and the result of the first that has an outcome; a failure is thrown. */
export function select<D extends Some>(children: D): Durable<[number, ResultOf<D[number]>]> {
  return new Select('select', some('select', children)) as Durable<[number, ResultOf<D[number]>]>;
}
