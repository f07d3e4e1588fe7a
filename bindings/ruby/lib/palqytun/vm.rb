# frozen_string_literal: true

module Palqytun
  # One VM, for one attempt of an invocation. Threads may share it: one call is made after the other. It is closed by `close`, or once it is garbage.
  #
  # Bytes are Strings, and what is returned as bytes is binary. Times are whole milliseconds since the Unix epoch, and a handle is an Integer.
  class VM
    A = Arguments
    L = Library
    private_constant :A, :L
    LARGE = 65_536 # bytes, from which on they are copied without the lock of Ruby
    OPTIONS = {
      implicit_cancellation: [:cancellation, ABI::IMPLICIT_CANCELLATION_CASES],
      non_deterministic_checks: [:checks, ABI::NON_DETERMINISTIC_CHECKS_CASES],
      awaiting_on_policy: [:awaiting, ABI::AWAITING_ON_POLICY_CASES],
      journal_mismatch_retry_behavior: [:mismatch, ABI::JOURNAL_MISMATCH_RETRY_BEHAVIOR_CASES],
      journal_replay: [:replay, ABI::JOURNAL_REPLAY_CASES],
      signal_delivery: [:delivery, ABI::SIGNAL_DELIVERY_CASES],
    }.freeze

    # The version of its messages.
    attr_reader :version

    # A VM for the version that the content type names; nil stands for an absent header. The options have symbols, as `journal_replay: :disabled`;
    # `fallback_random_seed` is the handler's random seed, if the version hands none out. With a block it is closed at the block's end.
    def self.open(content_type, **options)
      vm = new(content_type, **options)
      return vm unless block_given?
      begin
        yield vm
      ensure
        vm.close
      end
    end

    def initialize(content_type, fallback_random_seed: 0, **options)
      names = [*OPTIONS.keys, :fallback_random_seed]
      options.each_key { |name| raise ArgumentError, "VM has no option #{name}; its options are #{names.join(", ")}" unless OPTIONS.key?(name) }
      given = OPTIONS.to_h { |name, (field, cases)| [field, A.one(name, options[name], cases)] }
      given[:seed] = A.u64("fallback_random_seed", fallback_random_seed)
      asked = A.optional("content_type", content_type)
      @guard = Mutex.new
      @failed_by_handed_in = false # by an error that was handed in, which each later call raises
      @ext = L.ext
      @handle = @ext.pq_open
      raise StatusError, @handle if @handle.is_a?(Integer)
      @refused = false # an error has failed it, which may say in what a call isn't as recorded
      @difference = nil
      @version = one(:pq_make, asked, given)
      @replayed = Replayed.new(@version, **options)
    end

    # Frees its memory. It may be called again; each other call is then a StatusError.
    def close
      status = @guard.synchronize { @ext.pq_close(@handle) }
      L.done(status) unless status == ABI::NO_SESSION
    end

    # With the VM in a line for a log, or `:no_session` if it was closed.
    def inspect
      said = @guard.owned? ? @ext.pq_describe(@handle) : @guard.synchronize { @ext.pq_describe(@handle) }
      "#<#{self.class} #{said.is_a?(String) ? L.text(said) : ABI::STATUSES.fetch(said).first.inspect}>"
    end

    # ---- The attempt

    # The head of the response: status 200, and the content type of the version.
    def get_response_head
      call(:pq_head) { |it| ResponseHead.new(it[5], pairs(0, it[6])) }
    end

    # The next bytes of the attempt, cut anywhere. What they spell may fail the VM, which the next call raises.
    def notify_input(data)
      A.bytes("data", data)
      @guard.synchronize do
        L.done(data.bytesize < LARGE ? @ext.pq_feed(@handle, data) : @ext.pq_feed_large(@handle, data))
        @replayed.feed(data)
      end
      nil
    end

    # No more bytes come.
    def notify_input_closed = call(:pq_close_input) { nil }

    # The handler failed by an error of its own, which fails the VM; one that has failed keeps its first error. Each later call raises it as a
    # VMError of no other class, with any code.
    def notify_error(error, related: nil)
      given = A.error(error)
      hand_in(given, :pq_report_error, given, A.command(related))
    end

    # Takes all bytes that wait to be sent: whole frames.
    def take_output
      @guard.synchronize { taken_output(@ext.pq_take_output(@handle)) }
    end

    # The same for an output of as many bytes at most, copied without the lock of Ruby. One that is longer is a StatusError, and stays.
    def take_large_output(most)
      @guard.synchronize { taken_output(@ext.pq_take_output_large(@handle, A.u32("most", most))) }
    end

    # Whether the handler may begin: all known entries were fed.
    def ready_to_execute? = call(:pq_is_ready) { |it| it[2] == 1 }

    # The state as a symbol, as `:processing`.
    def state = call(:pq_state) { |it| ABI::STATE_CASES.key(it[2]) }

    # The index of the last command; -1 before any.
    def last_command_index = call(:pq_last_command_index) { |it| it[1] == ABI::INDEX ? it[5] : -1 }

    # ---- Awaits

    # Whether a future, a handle or a Future, is awake: true; else a Waiting, an ExecuteRun or an EphemeralReady says what to do next, or
    # `:cancelled` that the invocation was cancelled.
    def do_await(future)
      name, given = future.is_a?(Future) ? [:pq_await_tree, future.nodes] : [:pq_await, A.u32("future", future)]
      call(name, given) do |_, kind, first, second|
        @replayed.ends unless [ABI::AWAKE, ABI::CANCELLED].include?(kind)
        case kind
        when ABI::WAITING then Waiting.new(first == 1, second == 1)
        when ABI::EXECUTE_RUN then ExecuteRun.new(first)
        when ABI::EPHEMERAL then EphemeralReady.new(first)
        when ABI::CANCELLED then :cancelled
        else true
        end
      end
    end

    # Whether a take of the handle would return a value.
    def completed?(handle) = call(:pq_is_completed, A.u32("handle", handle)) { |it| it[2] == 1 }

    # Takes the result of a handle: a String, VOID, a Failure, an Array of keys or an InvocationID; nil if it has none.
    def take_notification(handle) = call(:pq_take, A.u32("handle", handle)) { |it| taken(it) }

    # Takes the value of an ephemeral read: a String, or VOID if the key has none; nil if it isn't there.
    def take_ephemeral_notification(id) = call(:pq_take_ephemeral, A.u32("id", id)) { |it| taken(it) }

    # ---- The handler's calls

    # What the handler was called with; its first call.
    def sys_input
      call(:pq_input) do |it|
        @replayed.begins
        texts = { invocation_id: 1, key: 2, scope: 3, limit_key: 4, idempotency_key: 5 }.transform_values { |at| text(at) }
        Input.new(input: part(0), headers: pairs(6, it[6]), random_seed: it[5], **texts)
      end
    end

    # A sleep until a time; its result is VOID.
    def sys_sleep(wake_up_millis, name: "") = one(:pq_sleep, A.text("name", name), A.u64("wake_up_millis", wake_up_millis))

    # Reads the value of a state key: a String, or VOID.
    def sys_state_get(key, name: "") = one(:pq_state_get, A.text("key", key), A.text("name", name))

    # Reads the keys that have a value.
    def sys_state_get_keys(name: "") = one(:pq_state_get_keys, A.text("name", name))

    # Reads the value of a state key and leaves nothing of it in the journal; returns the read's id. It needs version 8, and is refused in replay.
    def ephemeral_state_get(key) = one(:pq_ephemeral_state_get, A.text("key", key))

    # Gives a state key a value. Replay doesn't compare one that is unstable.
    def sys_state_set(key, value, name: "", unstable: false)
      call(:pq_state_set, A.text("key", key), A.bytes("value", value), A.text("name", name), unstable) { nil }
    end

    # Takes a state key's value away.
    def sys_state_clear(key, name: "") = call(:pq_state_clear, A.text("key", key), A.text("name", name)) { nil }

    # Takes each state key's value away.
    def sys_state_clear_all(name: "") = call(:pq_state_clear_all, A.text("name", name)) { nil }

    # Calls another handler; returns the handles of the invocation's id and of its result.
    def sys_call(service, handler, input, key: nil, idempotency_key: nil, scope: nil, limit_key: nil, headers: [], name: "", unstable: false)
      target = A.target(service, handler, key, idempotency_key, scope, limit_key, headers)
      call(:pq_call, target, A.bytes("input", input), A.text("name", name), unstable) { |it| it[2, 2] }
    end

    # Calls another handler and sleeps until a time, in one call; returns the handles of the invocation's id, of its result and of the deadline.
    def sys_call_with_deadline(
      service, handler, input, deadline_millis, key: nil, idempotency_key: nil, scope: nil, limit_key: nil, headers: [], name: "", unstable: false
    )
      target = A.target(service, handler, key, idempotency_key, scope, limit_key, headers)
      given = [A.bytes("input", input), A.u64("deadline_millis", deadline_millis), A.text("name", name), unstable]
      call(:pq_call_with_deadline, target, *given) { |it| it[2, 3] }
    end

    # Calls another handler, at once or at a time, and nobody waits for the result; returns the handle of the invocation's id.
    def sys_send(
      service, handler, input, at_millis: nil, key: nil, idempotency_key: nil, scope: nil, limit_key: nil, headers: [], name: "", unstable: false
    )
      target = A.target(service, handler, key, idempotency_key, scope, limit_key, headers)
      one(:pq_send, target, A.bytes("input", input), A.u64("at_millis", at_millis || 0), A.text("name", name), unstable)
    end

    # Sends the cancel signal to another invocation.
    def sys_cancel_invocation(invocation_id) = call(:pq_cancel_invocation, A.text("invocation_id", invocation_id)) { nil }

    # Attaches to another invocation; returns the handle of its result.
    def sys_attach_invocation(target) = one(:pq_attach, A.invocation(target))

    # Looks whether another invocation has an output; returns the handle of it, or of VOID.
    def sys_get_invocation_output(target) = one(:pq_get_output, A.invocation(target))

    # Makes an awakeable.
    def sys_awakeable = call(:pq_awakeable) { |it| Awakeable.new(it[2], text(0)) }

    # Gives the awakeable of this id its result, a String or a Failure.
    def sys_complete_awakeable(id, value, unstable: false)
      call(:pq_complete_awakeable, A.text("id", id), A.value("value", value), unstable) { nil }
    end

    # A handle for the signal of this name.
    def create_signal_handle(name) = one(:pq_signal, A.text("name", name))

    # Sends a named signal to another invocation.
    def sys_complete_signal(invocation_id, name, value)
      call(:pq_complete_signal, A.text("invocation_id", invocation_id), A.text("name", name), A.value("value", value)) { nil }
    end

    # Awaits a promise of the workflow; returns the handle of its value.
    def sys_get_promise(key) = one(:pq_get_promise, A.text("key", key))

    # Looks whether a promise of the workflow is completed; returns the handle of its value, or of VOID.
    def sys_peek_promise(key) = one(:pq_peek_promise, A.text("key", key))

    # Completes a promise of the workflow; returns the handle of VOID, or of a Failure if it had been completed before.
    def sys_complete_promise(key, value, unstable: false)
      one(:pq_complete_promise, A.text("key", key), A.value("value", value), unstable)
    end

    # Calls a run, an effect whose result is recorded; an await says when to execute it.
    def sys_run(name) = call(:pq_run, A.text("name", name)) { |it| Run.new(it[2], it[3] == 1) }

    # Gives the result of a run that an await asked to execute, a String or a Failure.
    def propose_run_completion(handle, value, policy: RetryPolicy.new(kind: :infinite))
      call(:pq_propose, A.u32("handle", handle), A.value("value", value), A.policy(policy)) { nil }
    end

    # A try of a run failed after this many milliseconds, and may be made again.
    def propose_retryable_failure(handle, took_millis, error, policy: RetryPolicy.new(kind: :infinite))
      run, took, given = A.u32("handle", handle), A.u64("took_millis", took_millis), A.error(error)
      hand_in(given, :pq_propose_retryable, run, took, given, A.policy(policy))
    end

    # The handler's result, a String or a Failure.
    def sys_write_output(value, unstable: false) = call(:pq_write_output, A.value("value", value), unstable) { nil }

    # The handler ends; its last call.
    def sys_end = call(:pq_end) { nil }

    private

    # Makes a typed call, and gives its reply to the block while no other call is made.
    def call(name, *given)
      @guard.synchronize do
        replied = @ext.public_send(name, @handle, *given)
        refuse(replied, name, given) unless replied.first == ABI::DONE
        yield replied
      end
    end

    # Makes a call of another VM on this one, which is a new one, for what it writes.
    def made_again(name, given) = @ext.public_send(name, @handle, *given)

    # The output of a call that took it. Once there is some, nothing is replayed any more.
    def taken_output(bytes)
      L.written(bytes).tap { |it| @replayed.ends unless it.empty? }
    end

    # Makes a call that hands in this error. If the VM fails by it, each later call is refused by it; a VM that had failed keeps its first error.
    def hand_in(error, name, *given)
      @guard.synchronize do
        had_failed = failure?(ready)
        replied = @ext.public_send(name, @handle, *given)
        @failed_by_handed_in = failed_by?(error, replied) unless had_failed
        @refused ||= @failed_by_handed_in
        refuse(replied, name, given) unless replied.first == ABI::DONE
      end
    end

    # Whether the VM has failed by this error, after a call with this reply that handed it in. It may also have failed by one of its own, which says
    # something else: the version has no such behavior, nobody waits for the run, or no memory was found.
    def failed_by?(error, replied)
      after = replied.first == ABI::REFUSED ? replied : ready
      failure?(after) && after[5] == error[:code] && text(0).to_s == error[:message]
    end

    def ready = @ext.pq_is_ready(@handle)

    # Whether it is an error by which the VM has failed.
    def failure?(replied) = replied.first(2) == [ABI::REFUSED, ABI::ERROR]

    def one(name, *given) = call(name, *given) { |it| it[2] }

    def refuse(replied, name, given)
      status, kind, related, index, type, code = replied
      raise StatusError, status unless status == ABI::REFUSED
      known = related == 1 ? Related.new(index, ABI::MESSAGE_TYPE_CASES.key(type), text(2).to_s) : nil
      said, trace, failed, retried = text(0).to_s, text(1).to_s, failure?(replied), @ext.pq_next_retry(@handle)
      if failed && !@refused
        @refused = true
        @difference = @replayed&.difference(said, known, name, given) { last_index }
      end
      raise VMError.of(kind, @failed_by_handed_in, code, said, trace, known, (@difference if failed), *after(retried))
    end

    # What is done after an error, and the delay of the next try, or nil.
    def after(row) = [ABI::ERROR_BEHAVIOR_CASES.key(row[:behavior]), (row[:delay_millis] if row[:has_delay] == 1)]

    def last_index
      it = @ext.pq_last_command_index(@handle)
      it[1] == ABI::INDEX ? it[5] : -1
    end

    def taken(replied)
      case replied[1]
      when ABI::VOID then VOID
      when ABI::VALUE then part(0)
      when ABI::FAILURE then Failure.new(code: replied[5], message: text(0), metadata: pairs(1, replied[6]))
      when ABI::KEYS then Array.new(replied[6]) { |at| text(at) }
      when ABI::INVOCATION_ID then InvocationID.new(text(0))
      end
    end

    def part(at) = L.part(@ext.pq_part(@handle, at))
    def text(at) = L.text(part(at))
    def pairs(first, rows) = Array.new(rows) { |row| [text(first + 2 * row), text(first + 2 * row + 1)] }
  end
end
