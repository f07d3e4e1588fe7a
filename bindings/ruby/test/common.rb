# frozen_string_literal: true

require "minitest/autorun"
require "palqytun"

# What the tests share.
module Common
  include Palqytun

  # A VM of version 7 that was fed these lines.
  def fed(*lines)
    VM.new(Palqytun.content_type(7)).tap { |vm| lines.each { |it| vm.notify_input(Frames.frame_of(it)) } }
  end

  # A VM of version 7 that has its input.
  def begun = fed('Start id="abc" debug_id="abc" known_entries=1', 'Input value="Till"').tap(&:sys_input)

  # The block raises this error, whose text is or matches this.
  def refused(error, text, &block)
    assert_operator text, :===, assert_raises(error, &block).message
  end
end
