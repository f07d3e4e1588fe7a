# frozen_string_literal: true

# A hundred thousand VMs and journals are opened and closed, and memory doesn't grow; nor does it by those that are garbage.
require_relative "common"

class TestMemory < Minitest::Test
  include Common

  MOST = 16_384 # pages: a hundred thousand VMs that stay would take more than 50,000
  MOST_OF_GARBAGE = 8_192 # thirty thousand that stay would take more than 15,000

  def resident_pages = File.read("/proc/self/statm").split[1].to_i

  def grown
    before = resident_pages
    yield
    GC.start
    resident_pages - before
  end

  def open_and_close(many)
    input = Frames.frame_of('Start id="abc" debug_id="abc" known_entries=1') + Frames.frame_of('Input value="Till"')
    many.times do
      vm = VM.new("application/vnd.restate.invocation.v7")
      vm.notify_input(input)
      vm.close
      Journal.new.close
    end
  end

  def test_memory_does_not_grow
    open_and_close(5_000)
    GC.start
    assert_operator grown { open_and_close(100_000) }, :<, MOST
  end

  def test_what_is_garbage_is_closed
    5_000.times { begun }
    GC.start
    # Ruby doesn't know how much memory a VM has, so the collector is asked.
    many = Array.new(6) { grown { 5_000.times { begun } } }
    assert_operator many.sum, :<, MOST_OF_GARBAGE
  end
end
