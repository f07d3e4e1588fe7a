# frozen_string_literal: true

module Palqytun
  # In what a call isn't as the recorded command of this index, the Input being 0.
  #
  # `field` is the first one that differs, by its name on the line of a frame (docs/FRAMES.md), and `type` if the two are of different types. `recorded` and
  # `asked` are its values, in the journal and by the call, as such a line has them, up to 120 characters; the types, if these differ. nil is a field at
  # its default; a command that isn't recorded; or a call that makes none, which is an await. `recorded_type` and `asked_type` are symbols, as `:call`.
  Difference = Struct.new(:index, :field, :recorded, :asked, :recorded_type, :asked_type) do
    # The same as a text, by an SDK's own names of commands, as `{ call: "ctx.service_call" }`. One that isn't there has its own.
    def in_words(names = {})
      own, made = [recorded_type, asked_type].map { |it| names.fetch(it) { it.to_s.split("_").map(&:capitalize).join } }
      return "no command is recorded at #{index}, and the call makes #{made}" if recorded_type.nil?
      return "command #{index} is recorded as #{own}, and the code awaits what hasn't come" if asked_type.nil?
      return "command #{index} is recorded as #{own}, and the call makes #{made}" if field == "type"
      "command #{index}, #{own}, is recorded with #{field} #{recorded || "nothing"}, and the call gives #{asked || "nothing"}"
    end

    def to_s = in_words
  end

  # What a VM was fed before its handler began, to say in what a call isn't as recorded. It is kept until the journal is replayed.
  class Replayed
    A = Arguments
    L = Library
    MISMATCHES = %w[UnavailableEntryError CommandTypeMismatchError CommandMismatchError].freeze
    private_constant :A, :L, :MISMATCHES

    def initialize(version, journal_replay: nil, non_deterministic_checks: nil, **)
      @version = version
      @fed = journal_replay == :disabled ? nil : []
      @ignores_payloads = non_deterministic_checks == :payload_checks_disabled
      @begun = false
    end

    def feed(data)
      @fed << data.dup.force_encoding(Encoding::BINARY) unless @fed.nil? || @begun
    end

    # The handler begins: all recorded commands were fed.
    def begins = @begun = true

    # What comes from now on isn't replayed.
    def ends = @fed = nil

    # In what the call of this name with these arguments isn't as recorded, if the error with this text and related command is about that. The block
    # gives the index of the last command.
    def difference(text, related, name, given)
      index, type = place(text, related) { yield }
      return if @fed.nil? || index.nil?
      fed = @fed.join
      compared = L.ext.pq_mismatch(fed, index, type)
      return unless compared[:status] == ABI::DONE
      types = %i[recorded asked].map { |it| compared[:"is_#{it}"] == 1 ? ABI::COMMAND_TYPE_CASES.key(compared[it]) : nil }
      asked = types.uniq.size == 1 ? again(name, given, compared[:is_lazy] == 1) : ""
      ignores = @ignores_payloads || given.last == true
      field, *values = Array.new(3) { |at| L.text(L.part(L.ext.pq_mismatch_part(fed, index, type, asked, ignores, at))) }
      field && Difference.new(index, field, *values, *types)
    end

    private

    # The index of the recorded command, and the type of the call's message, 0 of an await; nil if the error is about no such.
    def place(text, related)
      return [yield + 1, 0] if text == "UncompletedDoProgressDuringReplay"
      [related.index, ABI::MESSAGE_TYPE_CASES[related.type]] if related && MISMATCHES.include?(text)
    end

    # What a call writes on a new VM, whose journal has an input alone, and whose state is empty. A read of the state is made in one of its two forms.
    def again(name, given, lazy)
      VM.open(Palqytun.content_type(@version), awaiting_on_policy: :dont_send) do |vm|
        vm.notify_input(Frames.frame_of(%(Start id="-" debug_id="-" known_entries=1 partial=#{lazy})))
        vm.notify_input(Frames.frame_of("Input"))
        vm.sys_input
        vm.__send__(:made_again, name, given)
        vm.take_output
      end
    end
  end

  private_constant :Replayed
end
