# frozen_string_literal: true

# Plays the conformance suite (docs/CONFORMANCE.md): it reads rows on standard input, a row a line, and prints 'ok ROW', or what differs and then
# 'not ok ROW'. Its status is 0 if all rows fit.
require "json"
require "palqytun"

# The arguments of a step, as the gem takes them.
module Given
  WORDS = {
    "cancel" => [:implicit_cancellation, { "none" => :nothing, "both" => :calls_and_sends, "off" => :disabled }],
    "checks" => [:non_deterministic_checks, { "on" => :enabled, "off" => :payload_checks_disabled }],
    "awaiting" => [:awaiting_on_policy, { "norun" => :dont_send_when_executing_run, "always" => :send_always, "never" => :dont_send }],
    "mismatch" => [:journal_mismatch_retry_behavior, { "follow" => :follow_retry_policy, "fail" => :fail_terminally }],
    "replay" => [:journal_replay, { "on" => :enabled, "off" => :disabled }],
    "delivery" => [:signal_delivery, {}],
  }.freeze
  POLICIES = { "infinite" => :infinite, "none" => :none, "fixed" => :fixed_delay, "exp" => :exponential }.freeze

  module_function

  def options(of)
    made = WORDS.filter_map { |word, (name, cases)| [name, cases.fetch(of[word], of[word].to_sym)] if of[word] }.to_h
    made.merge(fallback_random_seed: of.fetch("seed", 0).to_i)
  end

  def bytes(hex) = [hex.to_s].pack("H*")

  def number(it) = it&.to_i

  def future(it)
    return it if it.is_a?(Integer)
    kind, children = it.first
    Palqytun::Future.public_send(kind, *children.map { |child| future(child) })
  end

  def value(it)
    failure = it["failure"]
    return bytes(it["success"]) unless failure
    Palqytun::Failure.new(code: failure["code"], message: failure["message"], metadata: failure["metadata"])
  end

  def error(it)
    Palqytun::HandlerError.new(
      code: it["code"], message: it["message"], stacktrace: it["stacktrace"], behavior: it["behaviour"]&.to_sym,
      next_retry_delay_millis: number(it["delay"])
    )
  end

  def related(it)
    return it&.to_sym unless it.is_a?(Hash)
    type = it["type"].gsub(/(?<=[a-z])(?=[A-Z])/, "_").downcase.to_sym
    Palqytun::RelatedCommand.new(type: type, name: it["name"], index: it["index"])
  end

  def target(it)
    more = %w[key idempotency_key scope limit_key].to_h { |name| [name.to_sym, it[name]] }
    more.merge(headers: it.fetch("headers", []), **named(it), **unstable(it))
  end

  def invocation(it)
    workflow, idempotency = it.values_at("workflow", "idempotency")
    return Palqytun::WorkflowID.new(**workflow.transform_keys(&:to_sym)) if workflow
    return Palqytun::IdempotencyID.new(**idempotency.transform_keys(&:to_sym)) if idempotency
    Palqytun::InvocationID.new(it["invocation_id"])
  end

  def policy(it)
    return {} unless it
    {
      policy: Palqytun::RetryPolicy.new(
        kind: POLICIES.fetch(it["kind"]), initial_millis: number(it["initial"]), factor: it["factor"], interval_millis: number(it["interval"]),
        max_attempts: it["attempts"], max_duration_millis: number(it["duration"]), pauses: it["pause"]
      ),
    }
  end

  def named(it) = { name: it.fetch("name", "") }

  def unstable(it) = { unstable: it.fetch("unstable", false) }
end

# What calls return, as the suite has it.
module Shown
  module_function

  def hex(bytes) = bytes.unpack1("H*")

  def exact(it) = it < 1 << 53 ? it : it.to_s

  def awaited(it)
    case it
    when true then "any"
    when :cancelled then "cancelled"
    when Palqytun::ExecuteRun then { "run" => it.handle }
    when Palqytun::EphemeralReady then { "ephemeral" => it.id }
    else { "wait" => { "input" => it.input, "run" => it.run } }
    end
  end

  def taken(it)
    case it
    when nil then "none"
    when Palqytun::VOID then "void"
    when String then { "success" => hex(it) }
    when Array then { "keys" => it }
    when Palqytun::InvocationID then { "invocation" => it.id }
    else { "failure" => { "code" => it.code, "message" => it.message, "metadata" => it.metadata } }
    end
  end

  def input(it)
    fields = %i[invocation_id key scope limit_key idempotency_key headers].to_h { |name| [name.to_s, it[name]] }
    fields.merge("random_seed" => exact(it.random_seed), "value" => hex(it.input))
  end

  def state(it) = it.to_s.split("_").map(&:capitalize).join
end

G = Given
S = Shown
CALLS = {
  "get_response_head" => ->(vm, _) { vm.get_response_head.then { |it| { "status_code" => it.status_code, "version" => vm.version, "headers" => it.headers } } },
  "notify_input" => ->(vm, it) { vm.notify_input(G.bytes(it["data"])) },
  "notify_input_closed" => ->(vm, _) { vm.notify_input_closed },
  "notify_error" => ->(vm, it) { vm.notify_error(G.error(it), related: G.related(it["related"])) },
  "take_output" => ->(vm, _) { S.hex(vm.take_output) },
  "is_ready_to_execute" => ->(vm, _) { vm.ready_to_execute? },
  "is_completed" => ->(vm, it) { vm.completed?(it["handle"]) },
  "state" => ->(vm, _) { S.state(vm.state) },
  "last_command_index" => ->(vm, _) { vm.last_command_index },
  "do_await" => ->(vm, it) { S.awaited(vm.do_await(G.future(it["future"]))) },
  "take_notification" => ->(vm, it) { S.taken(vm.take_notification(it["handle"])) },
  "take_ephemeral_notification" => ->(vm, it) { S.taken(vm.take_ephemeral_notification(it["id"])) },
  "sys_input" => ->(vm, _) { S.input(vm.sys_input) },
  "sys_sleep" => ->(vm, it) { vm.sys_sleep(it["wake_up_time"].to_i, **G.named(it)) },
  "sys_state_get" => ->(vm, it) { vm.sys_state_get(it["key"], **G.named(it)) },
  "sys_state_get_keys" => ->(vm, it) { vm.sys_state_get_keys(**G.named(it)) },
  "ephemeral_state_get" => ->(vm, it) { vm.ephemeral_state_get(it["key"]) },
  "sys_state_set" => ->(vm, it) { vm.sys_state_set(it["key"], G.bytes(it["value"]), **G.named(it), **G.unstable(it)) },
  "sys_state_clear" => ->(vm, it) { vm.sys_state_clear(it["key"], **G.named(it)) },
  "sys_state_clear_all" => ->(vm, it) { vm.sys_state_clear_all(**G.named(it)) },
  "sys_call" => ->(vm, it) { vm.sys_call(it["service"], it["handler"], G.bytes(it["value"]), **G.target(it)) },
  "sys_call_with_deadline" => lambda { |vm, it|
    vm.sys_call_with_deadline(it["service"], it["handler"], G.bytes(it["value"]), it["wake_up_time"].to_i, **G.target(it))
  },
  "sys_send" => ->(vm, it) { vm.sys_send(it["service"], it["handler"], G.bytes(it["value"]), at_millis: G.number(it["at"]), **G.target(it)) },
  "sys_cancel_invocation" => ->(vm, it) { vm.sys_cancel_invocation(it["invocation_id"]) },
  "sys_attach_invocation" => ->(vm, it) { vm.sys_attach_invocation(G.invocation(it["target"])) },
  "sys_get_invocation_output" => ->(vm, it) { vm.sys_get_invocation_output(G.invocation(it["target"])) },
  "sys_awakeable" => ->(vm, _) { vm.sys_awakeable.to_h.transform_keys(&:to_s) },
  "sys_complete_awakeable" => ->(vm, it) { vm.sys_complete_awakeable(it["id"], G.value(it["value"]), **G.unstable(it)) },
  "create_signal_handle" => ->(vm, it) { vm.create_signal_handle(it["name"]) },
  "sys_complete_signal" => ->(vm, it) { vm.sys_complete_signal(it["invocation_id"], it["name"], G.value(it["value"])) },
  "sys_get_promise" => ->(vm, it) { vm.sys_get_promise(it["key"]) },
  "sys_peek_promise" => ->(vm, it) { vm.sys_peek_promise(it["key"]) },
  "sys_complete_promise" => ->(vm, it) { vm.sys_complete_promise(it["key"], G.value(it["value"]), **G.unstable(it)) },
  "sys_run" => ->(vm, it) { vm.sys_run(it["name"]).to_h.transform_keys(&:to_s) },
  "propose_run_completion" => lambda { |vm, it|
    retryable, policy = it["result"]["retryable"], G.policy(it["policy"])
    next vm.propose_run_completion(it["handle"], G.value(it["result"]), **policy) unless retryable
    vm.propose_retryable_failure(it["handle"], retryable.fetch("duration", 0).to_i, G.error(retryable), **policy)
  },
  "sys_write_output" => ->(vm, it) { vm.sys_write_output(G.value(it["value"]), **G.unstable(it)) },
  "sys_end" => ->(vm, _) { vm.sys_end },
}.freeze

# The types of whole frames; nil if there is anything else.
def frames(output)
  types = []
  until output.empty?
    type, length = output.unpack("nQ>")
    return nil if length.nil? || output.bytesize < 10 + length
    types << type
    output = output.byteslice(10 + length..)
  end
  types
end

# What a call returned, or its error: with its difference, if the step asks for that.
def performed(step)
  { "returns" => yield }
rescue Palqytun::VMError => error
  asks = step.fetch("error", {}).key?("difference")
  { "error" => { "code" => error.code, "message" => error.text, **(asks ? { "difference" => error.difference&.to_s } : {}) } }
end

def fits?(step, found)
  return found.key?("returns") && frames([found["returns"]].pack("H*")) == step["frames"] if step["frames"]
  found == step.slice("returns", "error")
end

# Plays a row; whether it fits.
def play(row)
  vm = nil
  wrong = row["steps"].each_with_index.filter_map do |step, at|
    if step["call"] == "new"
      vm&.close
      vm = nil
      found = performed(step) { (vm = Palqytun::VM.new(step["content_type"], **G.options(step.fetch("options", {})))).version }
    else
      next if vm.nil?
      found = performed(step) { CALLS.fetch(step["call"]).call(vm, step) }
    end
    "#{row["row"]} (#{row["under"]}), step #{at}, #{step["call"]}: #{found}" unless fits?(step, found)
  end
  vm&.close
  puts wrong, "#{wrong.empty? ? "ok" : "not ok"} #{row["row"]}"
  wrong.empty?
end

all_fit = $stdin.each_line.map { |line| play(JSON.parse(line)) }.all?
exit all_fit ? 0 : 1
