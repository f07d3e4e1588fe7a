# frozen_string_literal: true

module Palqytun
  # The handle of the cancel signal, which a handler may await if `implicit_cancellation` is `:disabled`.
  CANCEL_HANDLE = ABI::CANCEL_HANDLE

  # A result without a value, as a sleep's.
  VOID = :void

  # A terminal failure: a result, or what a handler ends with. Metadata is pairs of Strings.
  Failure = Struct.new(:code, :message, :metadata, keyword_init: true)

  # A result that names an invocation, or an invocation to attach to.
  InvocationID = Struct.new(:id)

  # A workflow to attach to.
  WorkflowID = Struct.new(:name, :key, :scope, keyword_init: true)

  # An invocation to attach to, by its idempotency key.
  IdempotencyID = Struct.new(:service, :handler, :idempotency_key, :service_key, :scope, keyword_init: true)

  # An error of the handler's own. `behavior` is `:retry`, the default, `:pause` or `:fail`.
  HandlerError = Struct.new(:code, :message, :stacktrace, :behavior, :next_retry_delay_millis, keyword_init: true)

  # The command that a handler's error relates to: the next one, or that of an index. `type` is a symbol, as `:sleep`.
  RelatedCommand = Struct.new(:type, :name, :index, keyword_init: true)

  # When a run that failed is tried again: `kind` is `:infinite`, `:none`, `:fixed_delay` or `:exponential`. `factor` is a numerator, and a
  # denominator that isn't 0. At a bound the invocation pauses, or the error is the run's result.
  RetryPolicy = Struct.new(
    :kind, :initial_millis, :factor, :interval_millis, :max_attempts, :max_duration_millis, :pauses, keyword_init: true
  )
  RetryPolicy::KINDS = {
    infinite: ABI::POLICY_INFINITE,
    none: ABI::POLICY_NONE,
    fixed_delay: ABI::POLICY_FIXED_DELAY,
    exponential: ABI::POLICY_EXPONENTIAL,
  }.freeze

  # What the handler was called with.
  Input = Struct.new(
    :input, :invocation_id, :key, :scope, :limit_key, :idempotency_key, :headers, :random_seed, keyword_init: true
  )

  # The head of the response to the runtime.
  ResponseHead = Struct.new(:status_code, :headers)

  # What an await returns if nothing awaited is there yet: whether more input may bring it, and whether the result of a run may.
  Waiting = Struct.new(:input, :run)

  # What an await returns if a run is to be executed now: its handle.
  ExecuteRun = Struct.new(:handle)

  # What an await returns if the value of an ephemeral read is there: its id.
  EphemeralReady = Struct.new(:id)

  # A run that the handler called: the handle of its result, and whether the journal has that result already.
  Run = Struct.new(:handle, :replayed)

  # An awakeable: the handle to await, and the id by which others complete it.
  Awakeable = Struct.new(:handle, :id)
end
