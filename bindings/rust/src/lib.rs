#![doc = include_str!("../README.md")]
#![warn(missing_docs)]

mod differing;
mod error;
pub mod frames;
mod future;
mod journal;
mod lent;
mod library;
#[rustfmt::skip]
pub mod sys;
mod values;
mod vm;

pub use differing::Difference;
pub use error::{ArgumentError, Error, Related, Result, VmError};
pub use future::UnresolvedFuture;
pub use journal::{Journal, Row, Stored};
pub use library::{library, Library, LoadError};
#[doc(inline)]
pub use sys::{
    AwaitingOnPolicy, CommandType, ErrorBehavior, ImplicitCancellation, JournalMismatchRetryBehavior, JournalReplay,
    MessageType, NonDeterministicChecks, SignalDelivery, State, Status,
};
pub use values::{
    content_type, Awaited, Awakeable, CallHandles, DeadlineHandles, Failure, HandlerError, Input, InvocationTarget,
    NonEmptyValue, NotificationHandle, Options, PayloadOptions, RelatedCommand, ResponseHead, RetryPolicy, RunHandle,
    RunResult, Target, Value, CANCEL_NOTIFICATION_HANDLE, SUPPORTED_VERSIONS,
};
pub use vm::Vm;
