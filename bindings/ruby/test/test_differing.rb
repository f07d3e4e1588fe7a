# frozen_string_literal: true

# A mismatch says in what the call isn't as the journal has it.
require_relative "common"

class TestDiffering < Minitest::Test
  include Common

  ADA = 'Call service_name="Greeter" handler_name="greet" parameter="Ada" invocation_id_notification_idx=%d result_completion_id=%d'
  SLEEP = "Sleep wake_up_time=1000 result_completion_id=1"

  # A VM of version 7 that has its input, with these lines of frames behind it in the journal.
  def over(*lines, **options)
    VM.new(Palqytun.content_type(7), **options).tap do |vm|
      [%(Start id="abc" debug_id="abc" known_entries=#{1 + lines.size}), "Input", *lines].each do |line|
        frame = Frames.frame_of(line)
        vm.notify_input(frame)
        frame.replace("\xff" * frame.bytesize) # the caller's string is its own again
      end
      vm.sys_input
    end
  end

  def greet(vm, parameter, **how) = assert_raises(JournalMismatch) { vm.sys_call("Greeter", "greet", parameter, **how) }

  def test_a_call_with_another_argument
    vm = over(format(ADA, 1, 2))
    error = greet(vm, "Bob")
    assert_equal Difference.new(1, "parameter", '"Ada"', '"Bob"', :call, :call), error.difference
    text = '570 JOURNAL_MISMATCH: CommandMismatchError: command 1, Call, is recorded with parameter "Ada", and the call gives "Bob"'
    assert_equal text, error.message
    assert_equal text.sub(", Call,", ", ctx.service_call,"), error.in_words(call: "ctx.service_call")
    assert_equal text, assert_raises(JournalMismatch) { vm.sys_sleep(1) }.message
  end

  def test_what_replay_does_not_compare
    [[{}, true], [{ non_deterministic_checks: :payload_checks_disabled }, false]].each do |options, unstable|
      found = greet(over(%(#{format(ADA, 1, 2)} name="n"), **options), "Bob", name: "m", unstable: unstable).difference
      assert_equal ["name", '"n"', '"m"'], found.to_a[1, 3]
    end
  end

  def test_ids_follow_those_before
    { "Bob" => ["parameter", '"Ada"', '"Bob"'], "Ada" => %w[result_completion_id 7 3] }.each do |parameter, wanted|
      vm = over(SLEEP, format(ADA, 2, 7))
      vm.sys_sleep(1000)
      assert_equal wanted, greet(vm, parameter).difference.to_a[1, 3]
    end
  end

  def test_another_command_and_an_await
    found = assert_raises(JournalMismatch) { over(SLEEP).sys_run("charge") }.difference
    assert_equal [1, "type", "Sleep", "Run", :sleep, :run], found.to_a
    assert_equal "command 1 is recorded as Sleep, and the call makes Run", found.to_s
    waits = over(SLEEP)
    found = assert_raises(JournalMismatch) { waits.do_await(waits.create_signal_handle("go")) }.difference
    assert_equal "command 1 is recorded as Sleep, and the code awaits what hasn't come", found.to_s
    assert_nil found.asked_type
  end

  def test_what_is_done_after_an_error
    vm = begun
    vm.notify_error(HandlerError.new(code: 418, message: "no tea", behavior: :pause, next_retry_delay_millis: 500))
    error = assert_raises(VMError) { vm.sys_run("charge") }
    assert_equal [:pause, 500], [error.behavior, error.next_retry_delay_millis]
    error = assert_raises(JournalMismatch) { over(SLEEP, journal_mismatch_retry_behavior: :fail_terminally).sys_run("charge") }
    assert_equal [:fail, nil], [error.behavior, error.next_retry_delay_millis]
  end

  def test_without_a_difference
    vm = over(SLEEP)
    vm.notify_error(HandlerError.new(code: 570, message: "CommandTypeMismatchError"))
    assert_nil assert_raises(VMError) { vm.sys_run("charge") }.difference
    ended = begun.tap(&:sys_end)
    assert_nil assert_raises(Closed) { ended.sys_run("charge") }.difference
  end

  def test_a_long_value_is_shortened
    found = assert_raises(JournalMismatch) { over('Output result=value("a")').sys_write_output("\"\xff".b + "\0" * (1 << 20)) }.difference
    assert_equal ['value("a")', 122], [found.recorded, found.asked.size]
    assert found.asked.start_with?('value("\x22\xff\x00') && found.asked.end_with?("..")
  end
end
