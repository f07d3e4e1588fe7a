# frozen_string_literal: true

module Palqytun
  # An entry to be appended: the type of its message as a symbol, the completion id that it completes, and its bytes.
  Row = Struct.new(:message, :completes, :frame) do
    # What the row asks a runtime for, as a call, a sleep or a send.
    def effect = Frames::Message.new(frame)
  end

  # What is stored of an attempt's output: the rows to append, in order, and what the attempt is fed after the commit.
  Stored = Struct.new(:rows, :feed)

  # A stored journal, as its only writer knows it, without its entries. What may not be appended is a StatusError; what came since the last `keep` is
  # then taken back. Threads may share it.
  class Journal
    A = Arguments
    L = Library
    private_constant :A, :L

    # A journal of these entries, each one whole frame, the first one an Input; they are kept.
    def initialize(entries = [])
      @guard = Mutex.new
      @ext = L.ext
      @handle = @ext.pq_journal_open
      raise StatusError, @handle if @handle.is_a?(Integer)
      entries.each { |it| entry(it) }
      keep if self.entries.positive?
    end

    # Frees its memory. It may be called again; each other call is then a StatusError.
    def close
      status = @guard.synchronize { @ext.pq_close(@handle) }
      L.done(status) unless status == ABI::NO_JOURNAL
    end

    def inspect = "#<#{self.class}>"

    # How many entries it has, those that aren't committed too.
    def entries = row(@guard.synchronize { @ext.pq_journal_entries(@handle) })[:len]

    # The next entry of a journal that is loaded.
    def entry(frame) = row_of(@guard.synchronize { @ext.pq_journal_entry(@handle, A.bytes("frame", frame)) }, frame)

    # The entry that a notification is. The attempt is fed its bytes after the commit.
    def arrive(notification)
      row_of(@guard.synchronize { @ext.pq_journal_arrive(@handle, A.bytes("notification", notification)) }, notification)
    end

    # What is stored of what an attempt of this version wrote since the last store, as VM#take_output gave it.
    def store(version, output)
      @guard.synchronize do
        told = row(@ext.pq_journal_store(@handle, A.version("version", version), A.bytes("output", output)))
        rows = Array.new(told[:rows]) { |at| row_of(@ext.pq_journal_row(@handle, at), L.written(@ext.pq_journal_frame(@handle, at))) }
        Stored.new(rows, L.written(@ext.pq_journal_answer(@handle)))
      end
    end

    # What came since the last of these calls is committed. After `:no_memory` the journal has to be loaded again, into another.
    def keep = L.done(@guard.synchronize { @ext.pq_journal_keep(@handle) })

    # What came since the last commit isn't committed: the journal is again as it was then.
    def undo = L.done(@guard.synchronize { @ext.pq_journal_undo(@handle) })

    private

    def row(told)
      L.done(told[:status])
      told
    end

    def row_of(told, frame)
      row(told)
      Row.new(ABI::MESSAGE_TYPE_CASES.key(told[:type]), told[:is_completion] == 1 ? told[:completes] : nil, frame)
    end
  end
end
