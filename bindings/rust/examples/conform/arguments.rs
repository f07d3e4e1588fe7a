//! The arguments of a step, as the crate takes them.

use crate::json::Json;
use palqytun::{
    AwaitingOnPolicy, CommandType, ErrorBehavior, HandlerError, ImplicitCancellation, InvocationTarget,
    JournalMismatchRetryBehavior, JournalReplay, NonDeterministicChecks, NonEmptyValue, NotificationHandle, Options,
    RelatedCommand, RetryPolicy, RunResult, SignalDelivery, UnresolvedFuture,
};

pub fn hex(text: &str) -> Vec<u8> {
    (0..text.len() / 2).map(|at| u8::from_str_radix(&text[2 * at..2 * at + 2], 16).unwrap_or(0)).collect()
}

/// The case of a word, the first one if there is none.
fn case<T: Copy>(of: &Json, cases: &[(&str, T)]) -> T {
    match of.may_str() {
        None => cases[0].1,
        Some(word) => cases.iter().find(|it| it.0 == word).unwrap_or_else(|| panic!("no word {}", word)).1,
    }
}

pub fn options(of: &Json) -> Options {
    let cancel = [
        ("calls", ImplicitCancellation::Calls),
        ("none", ImplicitCancellation::Nothing),
        ("sends", ImplicitCancellation::Sends),
        ("both", ImplicitCancellation::CallsAndSends),
        ("off", ImplicitCancellation::Disabled),
    ];
    let checks = [("on", NonDeterministicChecks::Enabled), ("off", NonDeterministicChecks::PayloadChecksDisabled)];
    let awaiting = [
        ("norun", AwaitingOnPolicy::DontSendWhenExecutingRun),
        ("always", AwaitingOnPolicy::SendAlways),
        ("never", AwaitingOnPolicy::DontSend),
    ];
    let mismatch = [
        ("follow", JournalMismatchRetryBehavior::FollowRetryPolicy),
        ("pause", JournalMismatchRetryBehavior::Pause),
        ("fail", JournalMismatchRetryBehavior::FailTerminally),
    ];
    Options {
        implicit_cancellation: case(of.get("cancel"), &cancel),
        non_determinism_checks: case(of.get("checks"), &checks),
        awaiting_on_policy: case(of.get("awaiting"), &awaiting),
        journal_mismatch_retry_behavior: case(of.get("mismatch"), &mismatch),
        journal_replay: case(of.get("replay"), &[("on", JournalReplay::Enabled), ("off", JournalReplay::Disabled)]),
        signal_delivery: case(
            of.get("delivery"),
            &[("queued", SignalDelivery::Queued), ("overwrite", SignalDelivery::Overwrite)],
        ),
        fallback_random_seed: of.get("seed").u64(),
    }
}

/// Pairs of texts, which are lent.
pub struct Pairs(Vec<(String, String)>);

impl Pairs {
    pub fn of(it: &Json) -> Pairs {
        let text = |it: &Json| it.str().to_string();
        Pairs(it.list().iter().map(|pair| (text(&pair.list()[0]), text(&pair.list()[1]))).collect())
    }

    pub fn lent(&self) -> Vec<(&str, &str)> {
        self.0.iter().map(|(one, other)| (one.as_str(), other.as_str())).collect()
    }
}

/// A value, which is lent.
pub enum Value {
    Success(Vec<u8>),
    Failure(u16, String, Pairs),
}

impl Value {
    pub fn of(it: &Json) -> Value {
        match it.may_get("failure") {
            None => Value::Success(hex(it.get("success").str())),
            Some(it) => {
                let code = u16::try_from(it.get("code").u64()).expect("a code of 16 bits");
                Value::Failure(code, it.get("message").str().to_string(), Pairs::of(it.get("metadata")))
            }
        }
    }

    pub fn lent<T>(&self, mut call: impl FnMut(&NonEmptyValue<'_>) -> T) -> T {
        match self {
            Value::Success(bytes) => call(&NonEmptyValue::Success(bytes)),
            Value::Failure(code, message, pairs) => {
                call(&NonEmptyValue::Failure { code: *code, message, metadata: &pairs.lent() })
            }
        }
    }
}

pub fn error(of: &Json) -> HandlerError<'_> {
    let behaviours = [("retry", ErrorBehavior::Retry), ("pause", ErrorBehavior::Pause), ("fail", ErrorBehavior::Fail)];
    HandlerError {
        code: u16::try_from(of.get("code").u64()).expect("a code of 16 bits"),
        message: of.get("message").str(),
        stacktrace: of.get("stacktrace").str(),
        behavior: case(of.get("behaviour"), &behaviours),
        next_retry_delay_millis: of.get("delay").may_u64(),
    }
}

fn command_type(of: &Json) -> CommandType {
    (0..).map_while(CommandType::of_number).find(|it| format!("{:?}", it) == of.str()).expect("a type of command")
}

pub fn related(of: &Json) -> Option<RelatedCommand<'_>> {
    if of.may_str().is_some() {
        return Some(RelatedCommand::Last);
    }
    let (kind, name) = (of.may_get("kind")?.str(), of.get("name").may_str());
    let ty = command_type(of.get("type"));
    Some(match kind {
        "next" => RelatedCommand::Next { ty, name },
        _ => RelatedCommand::Specific { index: of.get("index").u32(), ty, name },
    })
}

pub fn invocation(of: &Json) -> InvocationTarget<'_> {
    if let Some(it) = of.may_get("workflow") {
        let (name, key) = (it.get("name").str(), it.get("key").str());
        return InvocationTarget::WorkflowId { name, key, scope: it.get("scope").may_str() };
    }
    match of.may_get("idempotency") {
        None => InvocationTarget::InvocationId(of.get("invocation_id").str()),
        Some(it) => InvocationTarget::IdempotencyId {
            service: it.get("service").str(),
            handler: it.get("handler").str(),
            idempotency_key: it.get("idempotency_key").str(),
            service_key: it.get("service_key").may_str(),
            scope: it.get("scope").may_str(),
        },
    }
}

pub fn run_result<T>(of: &Json, mut call: impl FnMut(&RunResult<'_>) -> T) -> T {
    match of.may_get("retryable") {
        None => Value::of(of).lent(|it| call(&RunResult::Terminal(*it))),
        Some(it) => {
            call(&RunResult::RetryableFailure { attempt_duration_millis: it.get("duration").u64(), error: error(it) })
        }
    }
}

pub fn policy(of: &Json) -> RetryPolicy {
    let (interval, pauses) = (of.get("interval").may_u64(), of.get("pause").is_true());
    let max_attempts = of.may_get("attempts").map(Json::u32);
    let max_duration_millis = of.get("duration").may_u64();
    match of.get("kind").str() {
        "none" => RetryPolicy::None,
        "fixed" => RetryPolicy::FixedDelay { interval_millis: interval, max_attempts, max_duration_millis, pauses },
        "exp" => RetryPolicy::Exponential {
            initial_interval_millis: of.get("initial").u64(),
            factor: (of.get("factor").list()[0].u32(), of.get("factor").list()[1].u32()),
            max_interval_millis: interval,
            max_attempts,
            max_duration_millis,
            pauses,
        },
        _ => RetryPolicy::Infinite,
    }
}

const TREES: [&str; 5] =
    ["first_completed", "all_completed", "first_succeeded_or_all_failed", "all_succeeded_or_first_failed", "unknown"];

pub fn future(of: &Json) -> UnresolvedFuture {
    let fields = match of {
        Json::Object(fields) => fields,
        _ => return NotificationHandle::from(of.u32()).into(),
    };
    let (kind, children) = fields.iter().next().expect("a kind");
    let below = children.list().iter().map(future);
    match TREES.iter().position(|it| it == kind) {
        Some(0) => UnresolvedFuture::first_completed(below),
        Some(1) => UnresolvedFuture::all_completed(below),
        Some(2) => UnresolvedFuture::first_succeeded_or_all_failed(below),
        Some(3) => UnresolvedFuture::all_succeeded_or_first_failed(below),
        _ => UnresolvedFuture::unknown(below),
    }
}
