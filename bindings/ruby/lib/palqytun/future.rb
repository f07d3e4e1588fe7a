# frozen_string_literal: true

module Palqytun
  # A tree over handles, which the methods below make.
  class Future
    # Each node after those of its children, packed: a kind and how many there are, or 0 and a handle.
    attr_reader :nodes

    def initialize(kind, children)
      below = children.map do |it|
        case it
        when Future then it.nodes
        when Integer then [ABI::SINGLE, Arguments.u32("each child", it)].pack("L2")
        else Arguments.wanted("each child", "a handle or a Future", it)
        end
      end
      @nodes = [*below, [kind, children.size].pack("L2")].join.b.freeze
      freeze
    end
    private_class_method :new

    # Awaited until some child has a result.
    def self.first_completed(*children) = new(ABI::FIRST_COMPLETED, children)

    # Awaited until all children have a result.
    def self.all_completed(*children) = new(ABI::ALL_COMPLETED, children)

    # Awaited until some child succeeds, or all have failed.
    def self.first_succeeded_or_all_failed(*children) = new(ABI::FIRST_SUCCEEDED_OR_ALL_FAILED, children)

    # Awaited until all children succeed, or some child has failed.
    def self.all_succeeded_or_first_failed(*children) = new(ABI::ALL_SUCCEEDED_OR_FIRST_FAILED, children)

    # Some way of the caller's own: asked again at each result of a child.
    def self.unknown(*children) = new(ABI::UNKNOWN, children)
  end
end
