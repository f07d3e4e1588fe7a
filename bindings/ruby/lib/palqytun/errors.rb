# frozen_string_literal: true

module Palqytun
  # What a call fails by. An argument of the wrong type is a TypeError, and one out of its bounds an ArgumentError; both name it.
  class Error < StandardError; end

  # The shared object, or the extension, can't be used. The text names the path, and says what to do.
  class LoadError < Error
    attr_reader :path

    def initialize(path, said)
      super(said)
      @path = path
    end
  end

  # A call wasn't made, and this is why: `status` is a symbol, as `:busy`.
  class StatusError < Error
    attr_reader :status

    def initialize(number)
      @status, said = ABI::STATUSES.fetch(number)
      super("#{@status}: #{said}")
    end
  end

  # A command that an error relates to: its index, the type of its message as a symbol, and its name.
  Related = Struct.new(:index, :type, :name)

  # The VM refused a call. It has failed, or is suspended or closed, and raises the same from each later call. An error that was handed in, by
  # `notify_error` or `propose_retryable_failure`, is of this class alone, with any code; the classes below are the VM's own errors.
  class VMError < Error
    # In what the call isn't as the journal has it, a Difference, if the error is about that and the journal was fed to this VM.
    attr_reader :difference
    # What is done after it, as `:retry`, and the delay of the next try, or nil.
    attr_reader :behavior, :next_retry_delay_millis
    attr_reader :code, :text, :stacktrace, :related

    CODES = %i[CODE_BAD_REQUEST CODE_UNSUPPORTED_MEDIA_TYPE CODE_INTERNAL CODE_JOURNAL_MISMATCH CODE_PROTOCOL_VIOLATION CODE_UNSUPPORTED_FEATURE
               CODE_CLOSED CODE_SUSPENDED].to_h { |it| [ABI.const_get(it), it.to_s.delete_prefix("CODE_")] }.freeze
    CONTENT_TYPES = "the content type must be application/vnd.restate.invocation.vN with N from #{ABI::MINIMUM_VERSION} to #{ABI::MAXIMUM_VERSION}".freeze
    private_constant :CODES, :CONTENT_TYPES

    def initialize(code, text, stacktrace, related, difference = nil, behavior = :retry, next_retry_delay_millis = nil, own: false)
      @code, @text, @stacktrace, @related, @difference, @own = code, text, stacktrace, related, difference, own
      @behavior, @next_retry_delay_millis = behavior, next_retry_delay_millis
      super(in_words)
    end

    # The message by an SDK's own names of commands, as `{ call: "ctx.service_call" }`. An error of the VM's own says the name of its code too, what is
    # allowed, and in what the call isn't as recorded.
    def in_words(names = {})
      name = @own ? CODES[code] : nil
      named = name.nil? || name == text ? code : "#{code} #{name}:"
      said = @own && code == ABI::CODE_INTERNAL && text.empty? ? ABI::STATUSES[ABI::NO_MEMORY].last : text
      allowed = " (#{CONTENT_TYPES})" if @own && code == ABI::CODE_UNSUPPORTED_MEDIA_TYPE
      more = difference ? ": #{difference.in_words(names)}" : related && " (command #{related.index}: #{related.type} #{related.name.inspect})"
      "#{named} #{said}#{allowed}#{more}"
    end

    # The code of an error that was handed in may be any, and says nothing of the VM; no such one is of a suspension's kind.
    def self.of(kind, handed_in, code, *rest)
      made = kind == ABI::SUSPENDED ? Suspended : CLASSES.fetch(handed_in ? nil : code, VMError)
      made.new(code, *rest, own: !handed_in)
    end
  end

  # The invocation is suspended: what is awaited can't come in this attempt.
  class Suspended < VMError; end

  # The handler has ended, so no call comes after.
  class Closed < VMError; end

  # The handler makes another call than the journal has recorded.
  class JournalMismatch < VMError; end

  VMError::CLASSES = {
    ABI::CODE_CLOSED => Closed,
    ABI::CODE_JOURNAL_MISMATCH => JournalMismatch,
  }.freeze
end
