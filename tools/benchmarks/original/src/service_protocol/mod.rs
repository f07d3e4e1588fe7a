//! Stands in for the original's module of this name: versions, types of messages, and notifications, by the names that its sources use.

mod framing;
pub(crate) mod messages;

pub(crate) use framing::{header, Decoder, Encoder, RawMessage};
use messages::notification_template;
use std::fmt::{self, Display, Formatter};
use std::str::FromStr;

pub(crate) type CompletionId = u32;
pub(crate) type SignalId = u32;

pub(crate) const CANCEL_SIGNAL_ID: SignalId = 1;

#[derive(Debug, Clone, Copy, PartialEq, Eq, PartialOrd, Ord)]
pub enum Version {
    V5,
    V6,
    V7,
    V8,
}

const VERSIONS: [(Version, &str); 4] = [
    (Version::V5, "application/vnd.restate.invocation.v5"),
    (Version::V6, "application/vnd.restate.invocation.v6"),
    (Version::V7, "application/vnd.restate.invocation.v7"),
    (Version::V8, "application/vnd.restate.invocation.v8"),
];

impl Version {
    pub const fn content_type(&self) -> &'static str {
        VERSIONS[*self as usize].1
    }

    pub const fn minimum_supported_version() -> Self {
        Version::V5
    }

    pub const fn maximum_supported_version() -> Self {
        Version::V8
    }
}

impl Display for Version {
    fn fmt(&self, f: &mut Formatter<'_>) -> fmt::Result {
        f.write_str(self.content_type())
    }
}

impl FromStr for Version {
    type Err = crate::Error;

    fn from_str(text: &str) -> Result<Self, crate::Error> {
        match VERSIONS.iter().find(|it| it.1 == text) {
            Some(it) => Ok(it.0),
            None => Err(crate::Error::new(415u16, format!("no version: {text}"))),
        }
    }
}

/// The types of messages, and their numbers in the protocol.
macro_rules! types {
    ($($name:ident $number:literal),* $(,)?) => {
        #[derive(Debug, Clone, Copy, PartialEq, Eq)]
        pub enum MessageType {
            $($name),*
        }

        impl From<MessageType> for u16 {
            fn from(ty: MessageType) -> u16 {
                match ty {
                    $(MessageType::$name => $number),*
                }
            }
        }

        impl TryFrom<u16> for MessageType {
            type Error = DecodingError;

            fn try_from(number: u16) -> Result<Self, DecodingError> {
                match number {
                    $($number => Ok(MessageType::$name),)*
                    _ => Err(DecodingError::UnknownType(number)),
                }
            }
        }
    };
}

types! {
    Start 0x0000, Suspension 0x0001, Error 0x0002, End 0x0003, CommandAck 0x0004, ProposeRunCompletion 0x0005, ProposeRunCompletionAck 0x0006,
    AwaitingOn 0x0007, GetStateEphemeralCommand 0x0008, GetStateEphemeralNotification 0x0009,
    InputCommand 0x0400, OutputCommand 0x0401, GetLazyStateCommand 0x0402, SetStateCommand 0x0403, ClearStateCommand 0x0404,
    ClearAllStateCommand 0x0405, GetLazyStateKeysCommand 0x0406, GetEagerStateCommand 0x0407, GetEagerStateKeysCommand 0x0408,
    GetPromiseCommand 0x0409, PeekPromiseCommand 0x040a, CompletePromiseCommand 0x040b, SleepCommand 0x040c, CallCommand 0x040d,
    OneWayCallCommand 0x040e, SendSignalCommand 0x0410, RunCommand 0x0411, AttachInvocationCommand 0x0412,
    GetInvocationOutputCommand 0x0413, CompleteAwakeableCommand 0x0414,
    GetLazyStateCompletionNotification 0x8002, GetLazyStateKeysCompletionNotification 0x8006, GetPromiseCompletionNotification 0x8009,
    PeekPromiseCompletionNotification 0x800a, CompletePromiseCompletionNotification 0x800b, SleepCompletionNotification 0x800c,
    CallCompletionNotification 0x800d, CallInvocationIdCompletionNotification 0x800e, RunCompletionNotification 0x8011,
    AttachInvocationCompletionNotification 0x8012, GetInvocationOutputCompletionNotification 0x8013, SignalNotification 0xfbff,
}

impl MessageType {
    pub fn is_command(&self) -> bool {
        matches!(u16::from(*self), 0x0400..=0x07ff)
    }

    pub fn is_notification(&self) -> bool {
        u16::from(*self) >= 0x8000
    }
}

impl Display for MessageType {
    fn fmt(&self, f: &mut Formatter<'_>) -> fmt::Result {
        write!(f, "{self:?}")
    }
}

/// The message by which a command is sent.
macro_rules! commands {
    ($($command:ident $message:ident),* $(,)?) => {
        impl From<crate::CommandType> for MessageType {
            fn from(ty: crate::CommandType) -> Self {
                match ty {
                    $(crate::CommandType::$command => MessageType::$message),*
                }
            }
        }
    };
}

commands! {
    Input InputCommand, Output OutputCommand, GetState GetLazyStateCommand, GetStateKeys GetLazyStateKeysCommand, SetState SetStateCommand,
    ClearState ClearStateCommand, ClearAllState ClearAllStateCommand, GetPromise GetPromiseCommand, PeekPromise PeekPromiseCommand,
    CompletePromise CompletePromiseCommand, Sleep SleepCommand, Call CallCommand, OneWayCall OneWayCallCommand,
    SendSignal SendSignalCommand, Run RunCommand, AttachInvocation AttachInvocationCommand,
    GetInvocationOutput GetInvocationOutputCommand, CompleteAwakeable CompleteAwakeableCommand, CancelInvocation SendSignalCommand,
}

#[allow(dead_code)]
#[derive(Debug)]
pub enum DecodingError {
    UnknownType(u16),
    NoField(&'static str),
    Message(prost::DecodeError),
}

impl From<prost::DecodeError> for DecodingError {
    fn from(error: prost::DecodeError) -> Self {
        DecodingError::Message(error)
    }
}

#[derive(Debug, Clone, PartialEq, Eq, Hash)]
pub(crate) enum NotificationId {
    CompletionId(CompletionId),
    SignalId(SignalId),
    SignalName(String),
}

impl From<notification_template::Id> for NotificationId {
    fn from(id: notification_template::Id) -> Self {
        use notification_template::Id;
        match id {
            Id::CompletionId(it) => NotificationId::CompletionId(it),
            Id::SignalId(it) => NotificationId::SignalId(it),
            Id::SignalName(it) => NotificationId::SignalName(it),
        }
    }
}

#[derive(Debug, Clone, PartialEq)]
pub(crate) enum NotificationResult {
    Void(messages::Void),
    Value(messages::Value),
    Failure(messages::Failure),
    InvocationId(String),
    StateKeys(messages::StateKeys),
}

impl NotificationResult {
    pub(crate) fn is_failure(&self) -> bool {
        matches!(self, Self::Failure(_))
    }
}

impl From<notification_template::Result> for NotificationResult {
    fn from(result: notification_template::Result) -> Self {
        use notification_template::Result;
        match result {
            Result::Void(it) => NotificationResult::Void(it),
            Result::Value(it) => NotificationResult::Value(it),
            Result::Failure(it) => NotificationResult::Failure(it),
            Result::InvocationId(it) => NotificationResult::InvocationId(it),
            Result::StateKeys(it) => NotificationResult::StateKeys(it),
        }
    }
}

impl From<NotificationResult> for crate::Value {
    fn from(result: NotificationResult) -> Self {
        let text = |key: bytes::Bytes| String::from_utf8(key.into()).expect("UTF-8");
        match result {
            NotificationResult::Void(_) => crate::Value::Void,
            NotificationResult::Value(it) => crate::Value::Success(it.content),
            NotificationResult::Failure(it) => crate::Value::Failure(it.into()),
            NotificationResult::InvocationId(it) => crate::Value::InvocationId(it),
            NotificationResult::StateKeys(it) => {
                crate::Value::StateKeys(it.keys.into_iter().map(text).collect())
            }
        }
    }
}

#[derive(Debug, Clone, PartialEq)]
pub(crate) struct Notification {
    pub(crate) id: NotificationId,
    pub(crate) result: NotificationResult,
}
