/** The log of a worker, as text or as JSON, a line each. What is logged during an attempt has its invocation, handler, attempt and trace. */

import { said, shown } from './errors';
import { within } from './within';

export type Level = 'debug' | 'info' | 'warning' | 'error';
export type Fields = Readonly<Record<string, unknown>>;
const LEVELS: readonly Level[] = ['debug', 'info', 'warning', 'error'];

export interface LogOptions {
  format?: 'text' | 'json';
  level?: Level;
  /** Where a line goes: the standard error by default. */
  write?: (line: string) => void;
}

export class Log {
  readonly #format: 'text' | 'json';
  readonly #least: number;
  readonly #write: (line: string) => void;

  constructor({ format = 'text', level = 'info', write = (line) => process.stderr.write(`${line}\n`) }: LogOptions = {}) {
    if (format !== 'text' && format !== 'json') throw new TypeError(`the log's format must be text or json, not ${shown(format)}`);
    if (!LEVELS.includes(level)) throw new TypeError(`the log's level must be one of ${LEVELS.join(', ')}, not ${shown(level)}`);
    this.#format = format;
    this.#least = LEVELS.indexOf(level);
    this.#write = write;
  }

  debug(message: string, fields: Fields = {}): void {
    this.put('debug', 'palqytun', message, fields);
  }

  info(message: string, fields: Fields = {}): void {
    this.put('info', 'palqytun', message, fields);
  }

  warning(message: string, fields: Fields = {}): void {
    this.put('warning', 'palqytun', message, fields);
  }

  error(message: string, fields: Fields = {}): void {
    this.put('error', 'palqytun', message, fields);
  }

  put(level: Level, logger: string, message: string, fields: Fields): void {
    if (LEVELS.indexOf(level) < this.#least) return;
    const time = new Date().toISOString();
    try {
      const all = { ...within.getStore()?.fields, ...fields };
      this.#write(this.#format === 'json' ? JSON.stringify({ time, level, logger, message, ...all }) : `${time} ${level.toUpperCase()} ${logger} ${message}`);
    } catch (error) {
      this.#write(`${time} ERROR palqytun a line of the log can't be written: ${said(error)}`);
    }
  }
}
