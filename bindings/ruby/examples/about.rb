# frozen_string_literal: true

# Prints which library there is, or why there is none.
require "palqytun"

begin
  puts Palqytun.build
rescue Palqytun::LoadError => error
  warn error.message
  exit 1
end
