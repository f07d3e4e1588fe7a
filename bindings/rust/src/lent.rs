//! Arguments as C takes them. Each points to what it was made of, which lives until the call has returned.

use crate::sys::{self, Bytes, Optional, Pair};
use crate::values::{HandlerError, InvocationTarget, NonEmptyValue, Options, RelatedCommand, RetryPolicy, Target};
use std::ptr;

const NO_BYTES: Bytes = Bytes { at: ptr::null(), len: 0 };
const NO_POLICY: sys::Policy = sys::Policy {
    kind: sys::POLICY_INFINITE,
    initial_millis: 0,
    numerator: 0,
    denominator: 0,
    has_interval: false,
    interval_millis: 0,
    has_attempts: false,
    attempts: 0,
    has_duration: false,
    duration_millis: 0,
    pauses: false,
};

pub(crate) fn bytes(of: &[u8]) -> Bytes {
    Bytes { at: of.as_ptr(), len: of.len() }
}

pub(crate) fn text(of: &str) -> Bytes {
    bytes(of.as_bytes())
}

pub(crate) fn optional(of: Option<&str>) -> Optional {
    Optional { is_given: of.is_some(), bytes: of.map_or(NO_BYTES, text) }
}

pub(crate) fn pairs(of: &[(&str, &str)]) -> Vec<Pair> {
    of.iter().map(|(key, value)| Pair { key: text(key), value: text(value) }).collect()
}

/// The pairs that a value has; [`value`] points to them.
pub(crate) fn metadata(of: &NonEmptyValue<'_>) -> Vec<Pair> {
    match of {
        NonEmptyValue::Success(_) => Vec::new(),
        NonEmptyValue::Failure { metadata, .. } => pairs(metadata),
    }
}

pub(crate) fn value(of: &NonEmptyValue<'_>, metadata: &[Pair]) -> sys::Value {
    let (is_failure, code, bytes) = match of {
        NonEmptyValue::Success(it) => (false, 0, bytes(it)),
        NonEmptyValue::Failure { code, message, .. } => (true, *code, text(message)),
    };
    sys::Value { is_failure, code, bytes, metadata: metadata.as_ptr(), metadata_len: metadata.len() }
}

pub(crate) fn target(of: &Target<'_>, headers: &[Pair]) -> sys::Target {
    sys::Target {
        service: text(of.service),
        handler: text(of.handler),
        key: optional(of.key),
        idempotency_key: optional(of.idempotency_key),
        scope: optional(of.scope),
        limit_key: optional(of.limit_key),
        headers: headers.as_ptr(),
        headers_len: headers.len(),
    }
}

pub(crate) fn options(of: &Options) -> sys::Options {
    sys::Options {
        cancellation: of.implicit_cancellation as u32,
        checks: of.non_determinism_checks as u32,
        awaiting: of.awaiting_on_policy as u32,
        mismatch: of.journal_mismatch_retry_behavior as u32,
        replay: of.journal_replay as u32,
        delivery: of.signal_delivery as u32,
        seed: of.fallback_random_seed,
    }
}

pub(crate) fn error(of: &HandlerError<'_>) -> sys::Error {
    sys::Error {
        code: of.code,
        behavior: of.behavior as u32,
        message: text(of.message),
        stacktrace: text(of.stacktrace),
        has_delay: of.next_retry_delay_millis.is_some(),
        delay_millis: of.next_retry_delay_millis.unwrap_or(0),
    }
}

pub(crate) fn command(of: &Option<RelatedCommand<'_>>) -> sys::Command {
    let (kind, index, ty, name) = match *of {
        None => (sys::RELATED_TO_NONE, 0, 0, None),
        Some(RelatedCommand::Last) => (sys::RELATED_TO_LAST, 0, 0, None),
        Some(RelatedCommand::Next { ty, name }) => (sys::RELATED_TO_NEXT, 0, ty as u32, name),
        Some(RelatedCommand::Specific { index, ty, name }) => (sys::RELATED_TO_SPECIFIC, index, ty as u32, name),
    };
    sys::Command { kind, index, r#type: ty, name: optional(name) }
}

pub(crate) fn invocation(of: &InvocationTarget<'_>) -> sys::Invocation {
    let none = (NO_BYTES, NO_BYTES, None, None);
    let (kind, name, (key, handler, service_key, scope)) = match *of {
        InvocationTarget::InvocationId(id) => (sys::TARGET_INVOCATION_ID, id, none),
        InvocationTarget::WorkflowId { name, key, scope } => {
            (sys::TARGET_WORKFLOW_ID, name, (text(key), NO_BYTES, None, scope))
        }
        InvocationTarget::IdempotencyId { service, handler, idempotency_key, service_key, scope } => {
            (sys::TARGET_IDEMPOTENCY_ID, service, (text(idempotency_key), text(handler), service_key, scope))
        }
    };
    sys::Invocation { kind, name: text(name), key, handler, service_key: optional(service_key), scope: optional(scope) }
}

pub(crate) fn policy(of: &RetryPolicy) -> sys::Policy {
    match *of {
        RetryPolicy::Infinite => NO_POLICY,
        RetryPolicy::None => sys::Policy { kind: sys::POLICY_NONE, ..NO_POLICY },
        RetryPolicy::FixedDelay { interval_millis, max_attempts, max_duration_millis, pauses } => {
            let fixed = sys::Policy { kind: sys::POLICY_FIXED_DELAY, pauses, ..NO_POLICY };
            bounded(fixed, interval_millis, max_attempts, max_duration_millis)
        }
        RetryPolicy::Exponential {
            initial_interval_millis,
            factor,
            max_interval_millis,
            max_attempts,
            max_duration_millis,
            pauses,
        } => {
            let growing = sys::Policy {
                kind: sys::POLICY_EXPONENTIAL,
                initial_millis: initial_interval_millis,
                numerator: factor.0,
                denominator: factor.1,
                pauses,
                ..NO_POLICY
            };
            bounded(growing, max_interval_millis, max_attempts, max_duration_millis)
        }
    }
}

fn bounded(of: sys::Policy, interval: Option<u64>, attempts: Option<u32>, duration: Option<u64>) -> sys::Policy {
    sys::Policy {
        has_interval: interval.is_some(),
        interval_millis: interval.unwrap_or(0),
        has_attempts: attempts.is_some(),
        attempts: attempts.unwrap_or(0),
        has_duration: duration.is_some(),
        duration_millis: duration.unwrap_or(0),
        ..of
    }
}
