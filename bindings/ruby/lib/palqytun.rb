# frozen_string_literal: true

# The invocation VM of Palqytun. docs/SDK.md has the loop of an SDK, call by call.
module Palqytun
  autoload :ABI, "palqytun/abi"

  # The versions of the messages that a VM may have.
  def self.supported_versions = ABI::MINIMUM_VERSION..ABI::MAXIMUM_VERSION

  # The content type of a version, one of supported_versions.
  def self.content_type(version) = "application/vnd.restate.invocation.v#{Arguments.version("version", version)}"

  # The library's version, the commit and the sum of the kit's logic that it was built of, and `proved` or `unproved`.
  def self.build = Library.ext.pq_build

  # The library's version.
  def self.library_version = Library.ext.pq_version

  # Whether the library was built of sources that were proved.
  def self.proved? = Library.ext.pq_is_proved
end

require "palqytun/errors"
require "palqytun/library"
require "palqytun/arguments"
require "palqytun/values"
require "palqytun/future"
require "palqytun/differing"
require "palqytun/vm"
require "palqytun/journal"
require "palqytun/frames"
