//! What goes into the VM and comes out of it. What goes in is lent: nothing is kept once the call has returned.

use crate::error::{ArgumentError, Result};
use crate::sys::{
    self, AwaitingOnPolicy, CommandType, ErrorBehavior, ImplicitCancellation, JournalMismatchRetryBehavior,
    JournalReplay, NonDeterministicChecks, SignalDelivery,
};
use std::ops::RangeInclusive;

/// The number under which a result comes.
#[derive(Clone, Copy, Debug, PartialEq, Eq, Hash, PartialOrd, Ord)]
pub struct NotificationHandle(u32);

impl From<u32> for NotificationHandle {
    fn from(number: u32) -> Self {
        NotificationHandle(number)
    }
}

impl From<NotificationHandle> for u32 {
    fn from(handle: NotificationHandle) -> u32 {
        handle.0
    }
}

/// The handle of the cancel signal, which a handler may await if [`ImplicitCancellation::Disabled`].
pub const CANCEL_NOTIFICATION_HANDLE: NotificationHandle = NotificationHandle(sys::CANCEL_HANDLE);

/// The versions of the messages that a VM may have.
pub const SUPPORTED_VERSIONS: RangeInclusive<u32> = sys::MINIMUM_VERSION..=sys::MAXIMUM_VERSION;

/// The content type of a version, one of [`SUPPORTED_VERSIONS`].
///
/// # Errors
///
/// [`Error::Argument`](crate::Error::Argument) if no VM has this version.
///
/// ```
/// assert_eq!(palqytun::content_type(7)?, "application/vnd.restate.invocation.v7");
/// assert_eq!(palqytun::content_type(9).unwrap_err().to_string(), "version must be from 5 to 8, not 9");
/// # Ok::<(), palqytun::Error>(())
/// ```
pub fn content_type(version: u32) -> Result<String> {
    ArgumentError::within("version", version, sys::MINIMUM_VERSION, sys::MAXIMUM_VERSION)?;
    Ok(format!("application/vnd.restate.invocation.v{}", version))
}

/// What a VM is asked to do in another way.
#[derive(Clone, Copy, Debug, PartialEq, Eq)]
pub struct Options {
    /// What a cancelled await cancels; by default the calls that the handler waits for.
    pub implicit_cancellation: ImplicitCancellation,
    /// Whether replay compares payloads; it does by default.
    pub non_determinism_checks: NonDeterministicChecks,
    /// When an await that waits for input says what it waits for; by default unless a run executes.
    pub awaiting_on_policy: AwaitingOnPolicy,
    /// What becomes of an invocation whose journal doesn't fit its handler; by default it follows the retry policy.
    pub journal_mismatch_retry_behavior: JournalMismatchRetryBehavior,
    /// Whether recorded commands are replayed; they are by default.
    pub journal_replay: JournalReplay,
    /// Whether several deliveries of one signal queue up; they do by default.
    pub signal_delivery: SignalDelivery,
    /// The handler's random seed, if the version hands none out.
    pub fallback_random_seed: u64,
}

impl Default for Options {
    fn default() -> Options {
        Options {
            implicit_cancellation: ImplicitCancellation::Calls,
            non_determinism_checks: NonDeterministicChecks::Enabled,
            awaiting_on_policy: AwaitingOnPolicy::DontSendWhenExecutingRun,
            journal_mismatch_retry_behavior: JournalMismatchRetryBehavior::FollowRetryPolicy,
            journal_replay: JournalReplay::Enabled,
            signal_delivery: SignalDelivery::Queued,
            fallback_random_seed: 0,
        }
    }
}

/// Which handler is called, and how.
#[derive(Clone, Copy, Debug, Default, PartialEq, Eq)]
pub struct Target<'a> {
    /// The service's name.
    pub service: &'a str,
    /// The handler's name.
    pub handler: &'a str,
    /// The key of an object or a workflow.
    pub key: Option<&'a str>,
    /// The idempotency key.
    pub idempotency_key: Option<&'a str>,
    /// The scope, from version 7 on.
    pub scope: Option<&'a str>,
    /// The limit key, from version 7 on.
    pub limit_key: Option<&'a str>,
    /// Headers: names and values.
    pub headers: &'a [(&'a str, &'a str)],
}

/// Whether replay compares a payload.
#[derive(Clone, Copy, Debug, Default, PartialEq, Eq)]
pub struct PayloadOptions {
    /// The payload's bytes may differ from one attempt to the next, so replay doesn't compare them.
    pub unstable_serialization: bool,
}

impl PayloadOptions {
    /// Replay compares the payload; the default.
    pub const STABLE: PayloadOptions = PayloadOptions { unstable_serialization: false };
    /// Replay doesn't compare the payload.
    pub const UNSTABLE: PayloadOptions = PayloadOptions { unstable_serialization: true };
}

/// A value that a handler gives: bytes, or a failure.
#[derive(Clone, Copy, Debug, PartialEq, Eq)]
pub enum NonEmptyValue<'a> {
    /// It went well.
    Success(&'a [u8]),
    /// It failed for good.
    Failure {
        /// The code.
        code: u16,
        /// What it says.
        message: &'a str,
        /// Names and values, from version 6 on.
        metadata: &'a [(&'a str, &'a str)],
    },
}

/// An invocation that is attached to.
#[derive(Clone, Copy, Debug, PartialEq, Eq)]
pub enum InvocationTarget<'a> {
    /// By its id.
    InvocationId(&'a str),
    /// As a workflow.
    WorkflowId {
        /// The workflow's name.
        name: &'a str,
        /// Its key.
        key: &'a str,
        /// Its scope.
        scope: Option<&'a str>,
    },
    /// By its idempotency key.
    IdempotencyId {
        /// The service's name.
        service: &'a str,
        /// The handler's name.
        handler: &'a str,
        /// The idempotency key.
        idempotency_key: &'a str,
        /// The key of an object.
        service_key: Option<&'a str>,
        /// The scope.
        scope: Option<&'a str>,
    },
}

/// An error of the handler's own.
#[derive(Clone, Copy, Debug, PartialEq, Eq)]
pub struct HandlerError<'a> {
    /// The code.
    pub code: u16,
    /// What it says.
    pub message: &'a str,
    /// The stack trace, or an empty text.
    pub stacktrace: &'a str,
    /// What is done after it.
    pub behavior: ErrorBehavior,
    /// After how many milliseconds the next try is made.
    pub next_retry_delay_millis: Option<u64>,
}

/// The command that a handler's error relates to.
#[derive(Clone, Copy, Debug, PartialEq, Eq)]
pub enum RelatedCommand<'a> {
    /// The last one.
    Last,
    /// The next one.
    Next {
        /// What it is.
        ty: CommandType,
        /// Its name.
        name: Option<&'a str>,
    },
    /// The one of an index.
    Specific {
        /// Its index.
        index: u32,
        /// What it is.
        ty: CommandType,
        /// Its name.
        name: Option<&'a str>,
    },
}

/// The result of a run.
#[derive(Clone, Copy, Debug, PartialEq, Eq)]
pub enum RunResult<'a> {
    /// It has ended.
    Terminal(NonEmptyValue<'a>),
    /// A try failed, and may be made again.
    RetryableFailure {
        /// How long the try took.
        attempt_duration_millis: u64,
        /// By what it failed.
        error: HandlerError<'a>,
    },
}

/// When a run that failed is tried again. At a bound the invocation pauses, or the error is the run's result.
#[derive(Clone, Copy, Debug, Default, PartialEq, Eq)]
pub enum RetryPolicy {
    /// As often as it fails; the default.
    #[default]
    Infinite,
    /// Never.
    None,
    /// After the same delay each time.
    FixedDelay {
        /// The delay.
        interval_millis: Option<u64>,
        /// The most attempts.
        max_attempts: Option<u32>,
        /// The longest time for all of them.
        max_duration_millis: Option<u64>,
        /// At a bound the invocation pauses.
        pauses: bool,
    },
    /// After a growing delay.
    Exponential {
        /// The first delay.
        initial_interval_millis: u64,
        /// By what it grows: a numerator, and a denominator that isn't 0.
        factor: (u32, u32),
        /// The longest delay.
        max_interval_millis: Option<u64>,
        /// The most attempts.
        max_attempts: Option<u32>,
        /// The longest time for all of them.
        max_duration_millis: Option<u64>,
        /// At a bound the invocation pauses.
        pauses: bool,
    },
}

/// The result of a handle.
#[derive(Clone, Debug, PartialEq, Eq)]
pub enum Value {
    /// No value, as a sleep's.
    Void,
    /// Bytes.
    Success(Vec<u8>),
    /// A failure.
    Failure(Failure),
    /// The keys of the state.
    StateKeys(Vec<String>),
    /// An invocation's id.
    InvocationId(String),
}

/// A failure that is a result.
#[derive(Clone, Debug, PartialEq, Eq)]
pub struct Failure {
    /// The code.
    pub code: u16,
    /// What it says.
    pub message: String,
    /// Names and values.
    pub metadata: Vec<(String, String)>,
}

/// What the handler was called with.
#[derive(Clone, Debug, PartialEq, Eq)]
pub struct Input {
    /// The invocation's id.
    pub invocation_id: String,
    /// The seed of the handler's random numbers.
    pub random_seed: u64,
    /// The key of an object or a workflow, or an empty text.
    pub key: String,
    /// The scope.
    pub scope: Option<String>,
    /// The limit key.
    pub limit_key: Option<String>,
    /// The idempotency key.
    pub idempotency_key: Option<String>,
    /// Headers: names and values.
    pub headers: Vec<(String, String)>,
    /// The bytes.
    pub input: Vec<u8>,
}

/// The head of the response to the runtime.
#[derive(Clone, Debug, PartialEq, Eq)]
pub struct ResponseHead {
    /// The status.
    pub status_code: u16,
    /// Names and values.
    pub headers: Vec<(String, String)>,
}

/// What an await returns.
#[derive(Clone, Copy, Debug, PartialEq, Eq)]
pub enum Awaited {
    /// The future is awake: it is done, or something in it has a result that it can act on.
    AnyCompleted,
    /// Nothing awaited is there yet. Both may be true.
    WaitingExternalProgress {
        /// More input may bring it.
        waiting_input: bool,
        /// The result of a run that executes may, once it is proposed.
        waiting_run_proposal: bool,
    },
    /// This run is to be executed now; then await again.
    ExecuteRun(NotificationHandle),
    /// The value of this ephemeral read is there; take it and await again.
    EphemeralNotificationReady(u32),
    /// The invocation was cancelled.
    CancelSignalReceived,
}

/// The handles of a call.
#[derive(Clone, Copy, Debug, PartialEq, Eq)]
pub struct CallHandles {
    /// That of the invocation's id.
    pub invocation_id: NotificationHandle,
    /// That of its result.
    pub result: NotificationHandle,
}

/// The handles of a call with a deadline.
#[derive(Clone, Copy, Debug, PartialEq, Eq)]
pub struct DeadlineHandles {
    /// That of the invocation's id.
    pub invocation_id: NotificationHandle,
    /// That of its result.
    pub result: NotificationHandle,
    /// That of the deadline.
    pub deadline: NotificationHandle,
}

/// A run that the handler called.
#[derive(Clone, Copy, Debug, PartialEq, Eq)]
pub struct RunHandle {
    /// The handle of its result.
    pub handle: NotificationHandle,
    /// Whether the journal has that result already.
    pub replayed: bool,
}

/// An awakeable.
#[derive(Clone, Debug, PartialEq, Eq)]
pub struct Awakeable {
    /// The id by which others complete it.
    pub id: String,
    /// The handle to await.
    pub handle: NotificationHandle,
}
