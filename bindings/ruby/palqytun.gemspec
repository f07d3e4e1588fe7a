# frozen_string_literal: true

Gem::Specification.new do |it|
  it.name = "palqytun"
  it.version = "0.1.0"
  it.summary = "The invocation VM of Palqytun: a proved core for durable execution"
  it.authors = ["Palqytun maintainers"]
  it.license = "MIT"
  it.files = Dir["lib/**/*.rb", "ext/**/*.{c,h,rb}", "README.md"]
  it.extensions = ["ext/palqytun/extconf.rb"]
  it.required_ruby_version = ">= 3.1"
end
