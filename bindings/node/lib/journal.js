// A stored journal, as its only writer knows it, without its entries.
'use strict';

const { MessageType, NUMBERS } = require('./abi');
const { addon, done, written } = require('./addon');
const lent = require('./arguments');
const { effectOf } = require('./effects');
const { StatusError, caseOf } = require('./errors');

function rowOf(it, frame, effect) {
  done(it.status);
  return { message: caseOf(MessageType, it.type), completes: it.is_completion ? it.completes : undefined, frame, effect };
}

class Journal {
  #addon;
  #handle;

  constructor(entries = []) {
    this.#addon = addon();
    const handle = this.#addon.journal_open();
    if (typeof handle === 'number') throw new StatusError(handle);
    this.#handle = handle;
    try {
      for (const entry of entries) this.entry(entry);
      if (this.entries > 0) this.keep();
    } catch (error) {
      this.close();
      throw error;
    }
  }

  close() {
    const status = this.#addon.journal_close(this.#handle);
    if (status !== NUMBERS.NO_JOURNAL) done(status);
  }

  get entries() {
    const told = this.#addon.journal_entries(this.#handle);
    done(told.status);
    return told.len;
  }

  entry(frame) {
    return rowOf(this.#addon.journal_entry(this.#handle, lent.bytes('frame', frame)), frame);
  }

  arrive(notification) {
    return rowOf(this.#addon.journal_arrive(this.#handle, lent.bytes('notification', notification)), notification);
  }

  store(version, output) {
    const stored = this.#addon.journal_store(this.#handle, lent.version('version', version), lent.bytes('output', output));
    done(stored.status);
    try {
      const rows = Array.from({ length: stored.rows }, (_, at) => this.#row(at));
      return { rows, feed: written(this.#addon.journal_answer(this.#handle)) };
    } catch (error) {
      if (error instanceof StatusError && error.status === 'NOT_A_FRAME') this.undo();
      throw error;
    }
  }

  /** A row of the last store, with what it asks for. */
  #row(at) {
    const [row, frame] = [this.#addon.journal_row(this.#handle, at), written(this.#addon.journal_frame(this.#handle, at))];
    return rowOf(row, frame, effectOf(this.#addon, this.#handle, at, row.type, frame));
  }

  keep() {
    done(this.#addon.journal_keep(this.#handle));
  }

  undo() {
    done(this.#addon.journal_undo(this.#handle));
  }
}

if (Symbol.dispose) Journal.prototype[Symbol.dispose] = Journal.prototype.close;

module.exports = { Journal };
