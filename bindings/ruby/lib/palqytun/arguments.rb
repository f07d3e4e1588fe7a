# frozen_string_literal: true

module Palqytun
  # Arguments as the extension takes them.
  module Arguments
    U16 = (1 << 16) - 1
    U32 = (1 << 32) - 1
    U64 = (1 << 64) - 1

    module_function

    def wanted(name, what, value) = raise(TypeError, "#{name} must be #{what}, not #{value.class}")

    # A String in UTF-8.
    def text(name, value)
      wanted(name, "a String", value) unless value.is_a?(String)
      made = value.encoding == Encoding::UTF_8 ? value : value.encode(Encoding::UTF_8)
      raise ArgumentError, "#{name} isn't valid UTF-8" unless made.valid_encoding?
      made
    rescue EncodingError
      raise ArgumentError, "#{name} has no UTF-8: its encoding is #{value.encoding}"
    end

    def optional(name, value) = value.nil? ? nil : text(name, value)

    # A String, whatever its encoding.
    def bytes(name, value) = value.is_a?(String) ? value : wanted(name, "a String", value)

    def whole(name, value, most, least = 0)
      wanted(name, "an Integer", value) unless value.is_a?(Integer)
      raise ArgumentError, "#{name} must be from #{least} to #{most}, not #{value}" unless value.between?(least, most)
      value
    end

    def u16(name, value) = whole(name, value, U16)
    def u32(name, value) = whole(name, value, U32)
    def u64(name, value) = whole(name, value, U64)

    # The version of an attempt's messages.
    def version(name, value) = whole(name, value, ABI::MAXIMUM_VERSION, ABI::MINIMUM_VERSION)

    # The number of a case, that of the first one for nil.
    def one(name, value, cases)
      return cases.values.first if value.nil?
      cases.fetch(value) { raise ArgumentError, "#{name} must be one of #{cases.keys.map(&:inspect).join(", ")}, not #{value.inspect[0, 100]}" }
    end

    def pairs(name, value)
      wanted(name, "pairs of Strings", value) unless value.respond_to?(:map)
      value.map do |pair|
        wanted("each of #{name}", "a pair of Strings", pair) unless pair.is_a?(Array) && pair.size == 2
        [text("a key of #{name}", pair[0]), text("a value of #{name}", pair[1])]
      end
    end

    # Bytes, or a Failure.
    def value(name, it)
      return { is_failure: false, code: 0, bytes: it, metadata: [] } if it.is_a?(String)
      wanted(name, "a String or a Failure", it) unless it.is_a?(Failure)
      message, metadata = text("#{name}.message", it.message), pairs("#{name}.metadata", it.metadata || [])
      { is_failure: true, code: u16("#{name}.code", it.code), bytes: message, metadata: metadata }
    end

    def target(service, handler, key, idempotency_key, scope, limit_key, headers)
      {
        service: text("service", service), handler: text("handler", handler), key: optional("key", key),
        idempotency_key: optional("idempotency_key", idempotency_key), scope: optional("scope", scope),
        limit_key: optional("limit_key", limit_key), headers: pairs("headers", headers),
      }
    end

    def invocation(it)
      none = { key: "", handler: "", service_key: nil, scope: nil }
      case it
      when InvocationID then { **none, kind: ABI::TARGET_INVOCATION_ID, name: text("target.id", it.id) }
      when WorkflowID
        named = { name: text("target.name", it.name), key: text("target.key", it.key) }
        { **none, kind: ABI::TARGET_WORKFLOW_ID, **named, scope: optional("target.scope", it.scope) }
      when IdempotencyID
        named = { name: text("target.service", it.service), handler: text("target.handler", it.handler) }
        keys = { key: text("target.idempotency_key", it.idempotency_key), service_key: optional("target.service_key", it.service_key) }
        { kind: ABI::TARGET_IDEMPOTENCY_ID, **named, **keys, scope: optional("target.scope", it.scope) }
      else wanted("target", "an InvocationID, a WorkflowID or an IdempotencyID", it)
      end
    end

    def error(it)
      wanted("error", "a HandlerError", it) unless it.is_a?(HandlerError)
      {
        code: u16("error.code", it.code), behavior: one("error.behavior", it.behavior, ABI::ERROR_BEHAVIOR_CASES),
        message: text("error.message", it.message), stacktrace: optional("error.stacktrace", it.stacktrace) || "",
        has_delay: !it.next_retry_delay_millis.nil?, delay_millis: u64("error.next_retry_delay_millis", it.next_retry_delay_millis || 0),
      }
    end

    def command(it)
      return { kind: ABI::RELATED_TO_NONE, index: 0, type: 0, name: nil } if it.nil?
      return { kind: ABI::RELATED_TO_LAST, index: 0, type: 0, name: nil } if it == :last
      wanted("related", ":last or a RelatedCommand", it) unless it.is_a?(RelatedCommand)
      wanted("related.type", "a Symbol", it.type) if it.type.nil?
      made = { type: one("related.type", it.type, ABI::COMMAND_TYPE_CASES), name: optional("related.name", it.name) }
      return { **made, kind: ABI::RELATED_TO_NEXT, index: 0 } if it.index.nil?
      { **made, kind: ABI::RELATED_TO_SPECIFIC, index: u32("related.index", it.index) }
    end

    # The numerator and the denominator of a policy's factor. Only one that grows has to have it.
    def factor(kind, value)
      grows = kind == ABI::POLICY_EXPONENTIAL
      return [0, 0] if value.nil? && !grows
      wanted("policy.factor", "a pair of Integers", value) unless value.is_a?(Array) && value.size == 2
      numerator, denominator = value
      [u32("the numerator of policy.factor", numerator), whole("the denominator of policy.factor", denominator, U32, grows ? 1 : 0)]
    end

    def policy(it)
      wanted("policy", "a RetryPolicy", it) unless it.is_a?(RetryPolicy)
      kind = one("policy.kind", it.kind, RetryPolicy::KINDS)
      numerator, denominator = factor(kind, it.factor)
      {
        kind: kind, initial_millis: u64("policy.initial_millis", it.initial_millis || 0), numerator: numerator, denominator: denominator,
        has_interval: !it.interval_millis.nil?, interval_millis: u64("policy.interval_millis", it.interval_millis || 0),
        has_attempts: !it.max_attempts.nil?, attempts: u32("policy.max_attempts", it.max_attempts || 0),
        has_duration: !it.max_duration_millis.nil?, duration_millis: u64("policy.max_duration_millis", it.max_duration_millis || 0),
        pauses: it.pauses ? true : false,
      }
    end
  end
end
