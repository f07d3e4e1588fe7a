//! Stands in for the original's module `vm::errors`: its errors, by the names that its sources use, with texts of ours. A case reaches none but
//! `SUSPENDED`.

use crate::error::NotificationMetadata;
use crate::service_protocol::messages::CommandMessageHeaderDiff;
use crate::service_protocol::{DecodingError, MessageType, NotificationId, Version};
use crate::Error;
use std::collections::{HashMap, HashSet};
use std::num::TryFromIntError;
use std::string::FromUtf8Error;

#[derive(Copy, Clone)]
pub struct InvocationErrorCode(u16);

impl InvocationErrorCode {
    pub const fn code(self) -> u16 {
        self.0
    }
}

impl From<InvocationErrorCode> for u16 {
    fn from(code: InvocationErrorCode) -> u16 {
        code.0
    }
}

pub mod codes {
    use super::InvocationErrorCode as Code;

    pub const BAD_REQUEST: Code = Code(400);
    pub const INTERNAL: Code = Code(500);
    pub const UNSUPPORTED_MEDIA_TYPE: Code = Code(415);
    pub const JOURNAL_MISMATCH: Code = Code(570);
    pub const PROTOCOL_VIOLATION: Code = Code(571);
    pub const UNSUPPORTED_FEATURE: Code = Code(573);
    pub const CLOSED: Code = Code(598);
    pub const SUSPENDED: Code = Code(599);
}

/// Errors of a code and a text.
macro_rules! constants {
    ($($name:ident = $code:ident $text:literal;)*) => {$(
        pub const $name: Error = Error::new_const(codes::$code.0, $text);
    )*};
}

constants! {
    MISSING_CONTENT_TYPE = UNSUPPORTED_MEDIA_TYPE "no content type";
    UNEXPECTED_INPUT_MESSAGE = PROTOCOL_VIOLATION "no message of the input";
    UNEXPECTED_ENTRY_MESSAGE = PROTOCOL_VIOLATION "no message of a journal";
    KNOWN_ENTRIES_IS_ZERO = INTERNAL "no known entry";
    INPUT_CLOSED_WHILE_WAITING_ENTRIES = PROTOCOL_VIOLATION "the input ended within the journal";
    INPUT_CLOSED_WHILE_WAITING_EPHEMERAL_NOTIFICATIONS = PROTOCOL_VIOLATION "the input ended";
    EMPTY_GET_STATE_EPHEMERAL_NOTIFICATION = PROTOCOL_VIOLATION "an ephemeral read without a result";
    EPHEMERAL_COMMAND_DURING_REPLAY = PROTOCOL_VIOLATION "an ephemeral read in replay";
    EMPTY_GET_EAGER_STATE = PROTOCOL_VIOLATION "an eager read without a result";
    EMPTY_GET_EAGER_STATE_KEYS = PROTOCOL_VIOLATION "an eager read of keys without a result";
    EMPTY_IDEMPOTENCY_KEY = INTERNAL "an empty idempotency key";
    EMPTY_LIMIT_KEY = INTERNAL "an empty limit key";
    EMPTY_SCOPE = INTERNAL "an empty scope";
    SUSPENDED = SUSPENDED "suspended";
}

/// Errors with fields, of which the text is made by `Debug`.
macro_rules! errors {
    ($($name:ident($($field:ident: $ty:ty),*) $code:ident;)*) => {$(
        #[allow(dead_code)]
        #[derive(Debug)]
        pub(crate) struct $name {
            $($field: $ty,)*
        }

        impl $name {
            pub(crate) fn new($($field: $ty),*) -> Self {
                Self { $($field),* }
            }
        }

        impl From<$name> for Error {
            fn from(error: $name) -> Error {
                Error::new(codes::$code, format!("{error:?}"))
            }
        }
    )*};
}

errors! {
    ClosedError(event: String) CLOSED;
    UnexpectedStateError(state: &'static str, event: String) PROTOCOL_VIOLATION;
    UnsupportedFeatureForNegotiatedVersion(feature: &'static str, current: Version, minimum: Version) UNSUPPORTED_FEATURE;
    BadProposeRunCompletionAck(id: u32) PROTOCOL_VIOLATION;
    EphemeralStateGetWithClosedInput(key: String) PROTOCOL_VIOLATION;
    UnavailableEntryError(expected: MessageType) PROTOCOL_VIOLATION;
    CommandTypeMismatchError(index: i64, actual: MessageType, expected: MessageType) JOURNAL_MISMATCH;
    UncompletedDoProgressDuringReplay(ids: HashSet<NotificationId>, known: HashMap<NotificationId, NotificationMetadata>) JOURNAL_MISMATCH;
}

/// Errors around a value that the original's sources make as a tuple.
macro_rules! wrapped {
    ($($name:ident($($ty:ty),*);)*) => {$(
        #[allow(dead_code)]
        #[derive(Debug)]
        pub(crate) struct $name($(pub(crate) $ty),*);

        impl From<$name> for Error {
            fn from(error: $name) -> Error {
                Error::new(codes::INTERNAL, format!("{error:?}"))
            }
        }
    )*};
}

wrapped! {
    OutOfBoundsDuration(&'static str, TryFromIntError);
    BadEagerStateKeyError(FromUtf8Error);
}

/// A command that isn't the recorded one.
pub(crate) struct CommandMismatchError<M> {
    index: i64,
    actual: M,
    expected: M,
}

impl<M> CommandMismatchError<M> {
    pub(crate) fn new(index: i64, actual: M, expected: M) -> Self {
        Self {
            index,
            actual,
            expected,
        }
    }
}

impl<M: CommandMessageHeaderDiff> From<CommandMismatchError<M>> for Error {
    fn from(it: CommandMismatchError<M>) -> Error {
        let text = format!("{}: {:?}, not {:?}", it.index, it.actual, it.expected);
        Error::new(codes::JOURNAL_MISMATCH, text)
    }
}

impl From<DecodingError> for Error {
    fn from(error: DecodingError) -> Error {
        Error::new(codes::INTERNAL, format!("{error:?}"))
    }
}
