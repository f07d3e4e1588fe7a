# frozen_string_literal: true

# What a caller may do wrong is an error, and the VM goes on.
require_relative "common"

class TestMisuse < Minitest::Test
  include Common

  def status(name, &block) = assert_equal(name, assert_raises(StatusError, &block).status)

  def test_what_was_closed
    vm = begun
    assert_equal "#<Palqytun::VM V7 abc Processing, last command 0>", vm.inspect
    2.times { vm.close }
    assert_equal "#<Palqytun::VM :no_session>", vm.inspect
    refused(StatusError, "no_session: the VM was closed") { vm.sys_sleep(1) }
    status(:no_session) { vm.notify_input("x") }
    status(:no_session) { vm.take_output }
    journal = Journal.new
    2.times { journal.close }
    status(:no_journal) { journal.keep }
    status(:no_session) { VM.open(Palqytun.content_type(7)) { |it| it }.state }
  end

  def test_objects_of_another_kind
    assert_raises(NoMethodError) { VM.allocate.sys_end }
    assert_raises(TypeError) { Marshal.dump(begun) }
    assert_raises(TypeError) { Palqytun::Ext.pq_state(7) }
    assert_raises(TypeError) { Palqytun::Ext.pq_state(Object.new) }
    assert_equal ABI::BAD_HANDLE, Palqytun::Ext.pq_state(Palqytun::Ext.pq_journal_open).first
    assert_equal ABI::BAD_HANDLE, Palqytun::Ext.pq_journal_keep(Palqytun::Ext.pq_open)
    assert_raises(ArgumentError) { Palqytun::Ext.pq_state }
    copy = begun.tap(&:dup).dup
    copy.close
    status(:no_session) { copy.state }
  end

  def test_arguments_of_the_wrong_type_are_named
    vm = begun
    refused(TypeError, "wake_up_millis must be an Integer, not String") { vm.sys_sleep("x") }
    refused(TypeError, "value must be a String, not Integer") { vm.sys_state_set("key", 7) }
    refused(TypeError, "key must be a String, not Integer") { vm.sys_state_set(7, "value") }
    refused(TypeError, "each of headers must be a pair of Strings, not Array") { vm.sys_call("S", "h", "", headers: [["a"]]) }
    refused(TypeError, "value.message must be a String, not NilClass") { vm.sys_write_output(Failure.new(code: 7)) }
    refused(TypeError, "target must be an InvocationID, a WorkflowID or an IdempotencyID, not String") { vm.sys_attach_invocation("x") }
    refused(TypeError, "each child must be a handle or a Future, not Hash") { Future.all_completed(17, {}) }
    refused(ArgumentError, /wake_up_millis must be from 0 to 18446744073709551615, not -1/) { vm.sys_sleep(-1) }
    refused(ArgumentError, /value.code must be from 0 to 65535, not 65536/) { vm.sys_write_output(Failure.new(code: 65_536, message: "")) }
    refused(ArgumentError, "name isn't valid UTF-8") { vm.create_signal_handle("\xff") }
    refused(ArgumentError, /VM has no option wait; its options are implicit_cancellation, /) { VM.new("x", wait: :never) }
    refused(TypeError, "related.type must be a Symbol, not NilClass") do
      vm.notify_error(HandlerError.new(code: 500, message: ""), related: RelatedCommand.new(index: 3))
    end
    refused(ArgumentError, "journal_replay must be one of :enabled, :disabled, not :never") { VM.new("x", journal_replay: :never) }
    assert_equal 0, vm.last_command_index
  end

  def test_a_factor_and_a_version_are_named
    vm = begun
    { 3 => "policy.factor must be a pair of Integers, not Integer", [3] => "policy.factor must be a pair of Integers, not Array",
      nil => "policy.factor must be a pair of Integers, not NilClass", [3, "2"] => "the denominator of policy.factor must be an Integer, not String" }.each do |it, said|
      refused(TypeError, said) { vm.propose_run_completion(17, "", policy: RetryPolicy.new(kind: :exponential, factor: it)) }
    end
    refused(ArgumentError, "the denominator of policy.factor must be from 1 to 4294967295, not 0") do
      vm.propose_run_completion(17, "", policy: RetryPolicy.new(kind: :exponential, factor: [3, 0]))
    end
    [4, 9, -1].each { |it| refused(ArgumentError, "version must be from 5 to 8, not #{it}") { Journal.new.store(it, "") } }
    assert_equal 0, vm.last_command_index
  end

  def test_what_errors_say
    error = assert_raises(VMError) { VM.new("text/plain") }
    allowed = "the content type must be application/vnd.restate.invocation.vN with N from 5 to 8"
    assert_equal "415 UNSUPPORTED_MEDIA_TYPE: BadContentType (#{allowed})", error.message
    ended, suspended, own = begun, begun, begun
    ended.sys_end
    refused(Closed, '598 CLOSED: ClosedError (command 1: sleep_command "")') { ended.sys_sleep(1) }
    suspended.notify_input_closed
    refused(Suspended, "599 SUSPENDED") { suspended.do_await(suspended.sys_sleep(1)) }
    own.notify_error(HandlerError.new(code: 570, message: "no tea"))
    refused(VMError, "570 no tea") { own.sys_end }
    assert_equal "500 INTERNAL: no memory was found", VMError.of(ABI::OUT_OF_MEMORY, false, 500, "", "", nil).message
  end

  def test_threads_share_a_vm
    vm = begun
    threads = Array.new(8) do
      Thread.new do
        200.times do
          vm.sys_sleep(1000, name: "nap")
          raise "no id" unless vm.sys_awakeable.id.start_with?("sign_")
          vm.take_output
        end
      end
    end
    threads.each(&:join)
    assert_equal 1600, vm.last_command_index
  end

  def test_large_copies
    vm = begun
    large = "x" * 3_000_000
    vm.sys_state_set("key", large)
    status(:no_room) { vm.take_large_output(10) }
    output = vm.take_large_output(4_000_000)
    assert_operator output.bytesize, :>, large.bytesize
    assert_equal "", vm.take_output
    other = VM.new(Palqytun.content_type(7))
    other.notify_input(Frames.frame_of('Start id="abc" debug_id="abc" known_entries=1'))
    other.notify_input(Frames.input_frame(Frames.frame_of('Input value=""'), large))
    assert_equal large, other.sys_input.input
  end

  def test_a_handle_of_another_vm
    one, other = begun, begun
    handle = Array.new(5) { one.create_signal_handle("go") }.last
    refute other.completed?(handle)
    assert_nil other.take_notification(handle)
    assert_equal Waiting.new(true, false), other.do_await(handle)
  end

  def test_a_tree_without_children_is_awaited
    vm = begun
    assert_equal true, vm.do_await(Future.all_completed)
    assert_equal :processing, vm.state
  end

  def test_errors_have_all_their_fields
    vm = fed('Start id="a" debug_id="a" known_entries=2', 'Input value=""', 'Sleep wake_up_time=1000 result_completion_id=1 name="nap"')
    vm.sys_input
    error = assert_raises(JournalMismatch) { vm.sys_call("Greeter", "greet", "Ada", name: "call") }
    assert_equal [570, 1, "call"], [error.code, error.related.index, error.related.name]
    own = begun
    own.notify_error(HandlerError.new(code: 418, message: "no tea", stacktrace: "at 1"), related: :last)
    error = assert_raises(VMError) { own.sys_end }
    assert_equal [418, "no tea", "at 1"], [error.code, error.text, error.stacktrace]
  end

  def test_a_suspension_and_an_end
    vm = begun
    slept = vm.sys_sleep(2**63)
    vm.notify_input_closed
    assert_raises(Suspended) { vm.do_await(Future.first_completed(slept, CANCEL_HANDLE)) }
    assert_raises(Closed) { vm.ready_to_execute? }
    other = begun
    other.sys_write_output("done")
    other.sys_end
    assert_raises(Closed) { other.sys_sleep(1) }
  end

  def test_a_handlers_error_is_no_suspension
    vm = begun
    vm.notify_error(HandlerError.new(code: 599, message: "SUSPENDED"))
    error = assert_raises(VMError) { vm.do_await(CANCEL_HANDLE) }
    assert_equal [VMError, 599, "SUSPENDED"], [error.class, error.code, error.text]
  end

  # The block raises an error with this code that is none of the VM's own.
  def plain(code, &block)
    error = assert_raises(VMError, &block)
    assert_equal [VMError, code], [error.class, error.code]
  end

  def test_an_error_that_is_handed_in_is_plain
    { 570 => "CommandTypeMismatchError", 598 => "ClosedError", 599 => "SUSPENDED", 500 => "" }.each do |code, message|
      vm, ended, ran = begun, begun, begun
      given = HandlerError.new(code: code, message: message)
      vm.notify_error(given)
      vm.notify_error(HandlerError.new(code: 418, message: "no tea")) # it keeps its first error
      ended.sys_end
      ended.notify_error(given)
      run = ran.sys_run("charge")
      ran.do_await(run.handle)
      plain(code) { ran.propose_retryable_failure(run.handle, 1, given) }
      [vm, ended, ran].each do |it|
        plain(code) { it.sys_sleep(1) }
        plain(code) { it.sys_end }
      end
    end
  end

  def test_an_error_after_a_failure_is_not_handed_in
    vm = fed('Start id="a" debug_id="a" known_entries=2', 'Input value=""', "Sleep wake_up_time=1000 result_completion_id=1")
    vm.sys_input
    assert_raises(JournalMismatch) { vm.sys_run("charge") }
    vm.notify_error(HandlerError.new(code: 570, message: "CommandTypeMismatchError"))
    assert_raises(JournalMismatch) { vm.sys_run("charge") }
  end

  def test_a_failure_that_is_the_result_of_a_run_is_not_handed_in
    vm = begun
    run = vm.sys_run("charge")
    vm.do_await(run.handle)
    vm.propose_retryable_failure(run.handle, 1, HandlerError.new(code: 598, message: ""), policy: RetryPolicy.new(kind: :none))
    vm.sys_end
    assert_raises(Closed) { vm.sys_sleep(1) }
  end

  # The version has no such behavior, and nobody waits for the run.
  def test_an_own_error_of_a_call_that_hands_one_in_is_own
    [418, 500, 573].each do |code|
      given = HandlerError.new(code: code, message: "mine", behavior: :pause)
      old, vm = VM.new(Palqytun.content_type(6)), begun
      old.notify_error(given)
      refused(VMError, "573 UNSUPPORTED_FEATURE: UnsupportedFeatureForNegotiatedVersion") { old.sys_end }
      refused(VMError, "500 INTERNAL: no pending run") { vm.propose_retryable_failure(99, 1, given) }
      refused(VMError, "500 INTERNAL: no pending run") { vm.sys_end }
    end
  end

  def test_the_content_type_of_a_version
    assert_equal "application/vnd.restate.invocation.v8", Palqytun.content_type(8)
    refused(ArgumentError, "version must be from 5 to 8, not 4") { Palqytun.content_type(4) }
    refused(ArgumentError, "version must be from 5 to 8, not 9") { Palqytun.content_type(9) }
    refused(TypeError, "version must be an Integer, not String") { Palqytun.content_type("7") }
  end

  def test_a_journal_and_its_effects
    journal = Journal.new([Frames.frame_of('Input value="Till"'), Frames.frame_of("Sleep wake_up_time=1000 result_completion_id=1")])
    slept = Frames.frame_of("Notification id=completion(1) result=void")
    assert_equal 1, journal.arrive(slept).completes
    journal.keep
    status(:second_completion) { journal.arrive(slept) }
    stored = journal.store(7, Frames.frame_of('Run name="a" result_completion_id=2') + Frames.frame_of('ProposeRunCompletion id=2 result=value("x")'))
    assert_equal [nil, 2], stored.rows.map(&:completes)
    refute_empty stored.feed
    effect = stored.rows.first.effect
    assert_equal [:run_command, 2, "a"], [effect.type, effect.id, effect.text(0)]
    journal.undo
    assert_equal 3, journal.entries
    refused(ArgumentError, "version must be from 5 to 8, not 4") { journal.store(4, "") }
  end

  def test_frames
    completed = Frames.completion(3, Frames.frame_of('Output result=value("Till")'))
    assert_equal 'Notification id=completion(3) result=value("Till")', Frames.line_of(completed)
    suspension = Frames.frame_of("Suspension future=(kind=FirstCompleted completions=[3])")
    assert_equal [false, true], [Frames.awake?(suspension, ""), Frames.awake?(suspension, completed)]
    assert_match(/name\("go"\)/, Frames.line_of(Frames.named_signal("go", Frames.value_frame("x" * 100_000))))
    status(:not_a_frame) { Frames.line_of("x") }
    status(:bad_line) { Frames.frame_of("Sleep soundly") }
  end
end
