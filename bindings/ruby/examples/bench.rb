# frozen_string_literal: true

# Prints what a call takes, in nanoseconds of the processor: the best of some rounds, of 1,000 calls each. With `allocations` it is how many of Ruby's objects a
# call makes. usage: bench.rb ROUNDS [allocations]
require "palqytun"

CALLS = 1000
START = ['Start id="abc" debug_id="abc" known_entries=1', 'Input value="Till"'].map { |it| Palqytun::Frames.frame_of(it) }.join
CASES = {
  "sleep" => ->(vm) { vm.sys_sleep(1000) },
  "state" => ->(vm) { vm.sys_state_set("key", "value") },
  "call" => ->(vm) { vm.sys_call("Greeter", "greet", "Ada") },
  "await" => ->(vm) { vm.do_await(17) },
}.freeze

def now = ARGV[1] ? GC.stat(:total_allocated_objects) : Process.clock_gettime(Process::CLOCK_PROCESS_CPUTIME_ID, :nanosecond)

def round_of(call)
  Palqytun::VM.open("application/vnd.restate.invocation.v7") do |vm|
    vm.notify_input(START)
    vm.sys_input
    vm.sys_sleep(1000)
    begun = now
    CALLS.times { call.call(vm) }
    (now - begun).fdiv(CALLS)
  end
end

CASES.each { |name, call| puts format("%s %.1f", name, Array.new(Integer(ARGV.fetch(0))) { round_of(call) }.min) }
