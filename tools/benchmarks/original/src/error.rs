//! Stands in for the original's module of this name: its error, by the names and fields that its sources use.

use crate::service_protocol::messages::ErrorBehavior;
use crate::service_protocol::MessageType;
use std::borrow::Cow;
use std::fmt::{self, Display, Formatter};
use std::time::Duration;

/// A command: its index, its type, and its name if it has one.
#[derive(Debug, Clone, PartialEq, Eq)]
pub struct CommandMetadata {
    pub(crate) index: u32,
    pub(crate) ty: MessageType,
    pub(crate) name: Option<Cow<'static, str>>,
}

impl CommandMetadata {
    pub(crate) fn new_named(
        name: impl Into<Cow<'static, str>>,
        index: u32,
        ty: MessageType,
    ) -> Self {
        let name = Some(name.into());
        Self { index, ty, name }
    }
}

/// What a notification belongs to.
#[allow(dead_code)]
#[derive(Debug, Clone)]
pub(crate) enum NotificationMetadata {
    RelatedToCommand(CommandMetadata),
    Awakeable(String),
    Cancellation,
}

#[derive(Debug, Clone, PartialEq, Eq)]
pub struct Error {
    pub(crate) code: u16,
    pub(crate) behavior: ErrorBehavior,
    pub(crate) message: Cow<'static, str>,
    pub(crate) stacktrace: String,
    pub(crate) related_command: Option<CommandMetadata>,
    pub(crate) next_retry_delay: Option<Duration>,
}

impl Error {
    pub fn new(code: impl Into<u16>, message: impl Into<Cow<'static, str>>) -> Self {
        Self {
            message: message.into(),
            ..Self::new_const(code.into(), "")
        }
    }

    pub(crate) const fn new_const(code: u16, message: &'static str) -> Self {
        Self {
            code,
            behavior: ErrorBehavior::Retry,
            message: Cow::Borrowed(message),
            stacktrace: String::new(),
            related_command: None,
            next_retry_delay: None,
        }
    }

    pub fn code(&self) -> u16 {
        self.code
    }

    pub(crate) fn with_related_command_metadata(self, command: CommandMetadata) -> Self {
        Self {
            related_command: Some(command),
            ..self
        }
    }
}

impl Display for Error {
    fn fmt(&self, f: &mut Formatter<'_>) -> fmt::Result {
        write!(f, "{}: {}", self.code, self.message)
    }
}

impl std::error::Error for Error {}
