//! Stands in for the messages that prost makes of the protocol's definition: the fields that the original's sources name, with the tags of the
//! protocol. The traits beside them are those of the original, by their names.

use super::MessageType;
use bytes::Bytes;
use prost::{Enumeration, Message};

/// Messages, a field a line: how prost encodes it, its name and its type.
macro_rules! messages {
    ($($name:ident { $(($($how:tt)*) $field:ident: $ty:ty,)* })*) => {$(
        #[derive(Clone, PartialEq, Message)]
        pub struct $name {
            $(#[prost($($how)*)] pub $field: $ty,)*
        }
    )*};
}

/// Fields of which a message has one, each in a module of the message's name.
macro_rules! choices {
    ($($module:ident { $($name:ident { $(($($how:tt)*) $variant:ident: $ty:ty,)* })* })*) => {$(
        pub mod $module {
            $(
                #[derive(Clone, PartialEq, prost::Oneof)]
                pub enum $name {
                    $(#[prost($($how)*)] $variant($ty),)*
                }
            )*
        }
    )*};
}

#[derive(Debug, Clone, Copy, PartialEq, Eq, Hash, PartialOrd, Ord, Enumeration)]
#[repr(i32)]
pub enum CombinatorType {
    Unknown = 0,
    FirstCompleted = 1,
    AllCompleted = 2,
    FirstSucceededOrAllFailed = 3,
    AllSucceededOrFirstFailed = 4,
}

#[derive(Debug, Clone, Copy, PartialEq, Eq, Hash, PartialOrd, Ord, Enumeration)]
#[repr(i32)]
pub enum ErrorBehavior {
    Retry = 0,
    Pause = 1,
    Fail = 2,
}

messages! {
    Void {}
    Value {
        (bytes = "bytes", tag = "1") content: Bytes,
    }
    Failure {
        (uint32, tag = "1") code: u32,
        (string, tag = "2") message: String,
        (message, repeated, tag = "3") metadata: Vec<FailureMetadata>,
    }
    FailureMetadata {
        (string, tag = "1") key: String,
        (string, tag = "2") value: String,
    }
    Header {
        (string, tag = "1") key: String,
        (string, tag = "2") value: String,
    }
    StateKeys {
        (bytes = "bytes", repeated, tag = "1") keys: Vec<Bytes>,
    }
    StateEntry {
        (bytes = "bytes", tag = "1") key: Bytes,
        (bytes = "bytes", tag = "2") value: Bytes,
    }
    Future {
        (uint32, repeated, tag = "1") waiting_completions: Vec<u32>,
        (uint32, repeated, tag = "2") waiting_signals: Vec<u32>,
        (string, repeated, tag = "3") waiting_named_signals: Vec<String>,
        (message, repeated, tag = "4") nested_futures: Vec<Future>,
        (enumeration = "CombinatorType", tag = "5") combinator_type: i32,
    }
    WorkflowTarget {
        (string, tag = "1") workflow_name: String,
        (string, tag = "2") workflow_key: String,
        (string, optional, tag = "3") scope: Option<String>,
    }
    IdempotentRequestTarget {
        (string, tag = "1") service_name: String,
        (string, optional, tag = "2") service_key: Option<String>,
        (string, tag = "3") handler_name: String,
        (string, tag = "4") idempotency_key: String,
        (string, optional, tag = "5") scope: Option<String>,
    }
    NotificationTemplate {
        (oneof = "notification_template::Id", tags = "1, 2, 3") id: Option<notification_template::Id>,
        (oneof = "notification_template::Result", tags = "4, 5, 6, 16, 17") result: Option<notification_template::Result>,
    }
}

// Messages of the stream that are no commands.
messages! {
    StartMessage {
        (bytes = "bytes", tag = "1") id: Bytes,
        (string, tag = "2") debug_id: String,
        (uint32, tag = "3") known_entries: u32,
        (message, repeated, tag = "4") state_map: Vec<StateEntry>,
        (bool, tag = "5") partial_state: bool,
        (string, tag = "6") key: String,
        (uint32, tag = "7") retry_count_since_last_stored_entry: u32,
        (uint64, tag = "8") duration_since_last_stored_entry: u64,
        (uint64, tag = "9") random_seed: u64,
        (string, optional, tag = "10") scope: Option<String>,
        (string, optional, tag = "11") limit_key: Option<String>,
        (string, optional, tag = "12") idempotency_key: Option<String>,
    }
    SuspensionMessage {
        (message, optional, tag = "1") awaiting_on: Option<Future>,
    }
    AwaitingOnMessage {
        (message, optional, tag = "1") awaiting_on: Option<Future>,
        (bool, tag = "2") executing_side_effects: bool,
    }
    ErrorMessage {
        (uint32, tag = "1") code: u32,
        (string, tag = "2") message: String,
        (string, tag = "3") stacktrace: String,
        (uint32, optional, tag = "4") related_command_index: Option<u32>,
        (string, optional, tag = "5") related_command_name: Option<String>,
        (uint32, optional, tag = "6") related_command_type: Option<u32>,
        (uint64, optional, tag = "8") next_retry_delay: Option<u64>,
        (enumeration = "ErrorBehavior", tag = "9") behavior: i32,
    }
    EndMessage {}
    ProposeRunCompletionMessage {
        (uint32, tag = "1") result_completion_id: u32,
        (oneof = "propose_run_completion_message::Result", tags = "14, 15") result: Option<propose_run_completion_message::Result>,
    }
    ProposeRunCompletionAckMessage {
        (uint32, tag = "1") completion_id: u32,
    }
    GetStateEphemeralCommandMessage {
        (uint32, tag = "1") ephemeral_completion_id: u32,
        (bytes = "bytes", tag = "2") key: Bytes,
    }
    GetStateEphemeralNotificationMessage {
        (uint32, tag = "1") ephemeral_completion_id: u32,
        (oneof = "get_state_ephemeral_notification_message::Result", tags = "4, 5")
            result: Option<get_state_ephemeral_notification_message::Result>,
    }
}

// Commands.
messages! {
    InputCommandMessage {
        (message, repeated, tag = "1") headers: Vec<Header>,
        (string, tag = "12") name: String,
        (message, optional, tag = "14") value: Option<Value>,
    }
    OutputCommandMessage {
        (string, tag = "12") name: String,
        (oneof = "output_command_message::Result", tags = "14, 15") result: Option<output_command_message::Result>,
    }
    GetLazyStateCommandMessage {
        (bytes = "bytes", tag = "1") key: Bytes,
        (uint32, tag = "11") result_completion_id: u32,
        (string, tag = "12") name: String,
    }
    SetStateCommandMessage {
        (bytes = "bytes", tag = "1") key: Bytes,
        (message, optional, tag = "3") value: Option<Value>,
        (string, tag = "12") name: String,
    }
    ClearStateCommandMessage {
        (bytes = "bytes", tag = "1") key: Bytes,
        (string, tag = "12") name: String,
    }
    ClearAllStateCommandMessage {
        (string, tag = "12") name: String,
    }
    GetLazyStateKeysCommandMessage {
        (uint32, tag = "11") result_completion_id: u32,
        (string, tag = "12") name: String,
    }
    GetEagerStateCommandMessage {
        (bytes = "bytes", tag = "1") key: Bytes,
        (string, tag = "12") name: String,
        (oneof = "get_eager_state_command_message::Result", tags = "13, 14") result: Option<get_eager_state_command_message::Result>,
    }
    GetEagerStateKeysCommandMessage {
        (string, tag = "12") name: String,
        (message, optional, tag = "14") value: Option<StateKeys>,
    }
    GetPromiseCommandMessage {
        (string, tag = "1") key: String,
        (uint32, tag = "11") result_completion_id: u32,
        (string, tag = "12") name: String,
    }
    PeekPromiseCommandMessage {
        (string, tag = "1") key: String,
        (uint32, tag = "11") result_completion_id: u32,
        (string, tag = "12") name: String,
    }
    CompletePromiseCommandMessage {
        (string, tag = "1") key: String,
        (oneof = "complete_promise_command_message::Completion", tags = "2, 3") completion: Option<complete_promise_command_message::Completion>,
        (uint32, tag = "11") result_completion_id: u32,
        (string, tag = "12") name: String,
    }
    SleepCommandMessage {
        (uint64, tag = "1") wake_up_time: u64,
        (uint32, tag = "11") result_completion_id: u32,
        (string, tag = "12") name: String,
    }
    CallCommandMessage {
        (string, tag = "1") service_name: String,
        (string, tag = "2") handler_name: String,
        (bytes = "bytes", tag = "3") parameter: Bytes,
        (message, repeated, tag = "4") headers: Vec<Header>,
        (string, tag = "5") key: String,
        (string, optional, tag = "6") idempotency_key: Option<String>,
        (string, optional, tag = "7") scope: Option<String>,
        (string, optional, tag = "8") limit_key: Option<String>,
        (uint32, tag = "10") invocation_id_notification_idx: u32,
        (uint32, tag = "11") result_completion_id: u32,
        (string, tag = "12") name: String,
    }
    OneWayCallCommandMessage {
        (string, tag = "1") service_name: String,
        (string, tag = "2") handler_name: String,
        (bytes = "bytes", tag = "3") parameter: Bytes,
        (uint64, tag = "4") invoke_time: u64,
        (message, repeated, tag = "5") headers: Vec<Header>,
        (string, tag = "6") key: String,
        (string, optional, tag = "7") idempotency_key: Option<String>,
        (string, optional, tag = "8") scope: Option<String>,
        (string, optional, tag = "9") limit_key: Option<String>,
        (uint32, tag = "10") invocation_id_notification_idx: u32,
        (string, tag = "12") name: String,
    }
    SendSignalCommandMessage {
        (string, tag = "1") target_invocation_id: String,
        (oneof = "send_signal_command_message::SignalId", tags = "2, 3") signal_id: Option<send_signal_command_message::SignalId>,
        (oneof = "send_signal_command_message::Result", tags = "4, 5, 6") result: Option<send_signal_command_message::Result>,
        (string, tag = "12") entry_name: String,
    }
    RunCommandMessage {
        (uint32, tag = "11") result_completion_id: u32,
        (string, tag = "12") name: String,
    }
    AttachInvocationCommandMessage {
        (oneof = "attach_invocation_command_message::Target", tags = "1, 3, 4") target: Option<attach_invocation_command_message::Target>,
        (uint32, tag = "11") result_completion_id: u32,
        (string, tag = "12") name: String,
    }
    GetInvocationOutputCommandMessage {
        (oneof = "get_invocation_output_command_message::Target", tags = "1, 3, 4")
            target: Option<get_invocation_output_command_message::Target>,
        (uint32, tag = "11") result_completion_id: u32,
        (string, tag = "12") name: String,
    }
    CompleteAwakeableCommandMessage {
        (string, tag = "1") awakeable_id: String,
        (oneof = "complete_awakeable_command_message::Result", tags = "2, 3") result: Option<complete_awakeable_command_message::Result>,
        (string, tag = "12") name: String,
    }
}

choices! {
    notification_template {
        Id {
            (uint32, tag = "1") CompletionId: u32,
            (uint32, tag = "2") SignalId: u32,
            (string, tag = "3") SignalName: String,
        }
        Result {
            (message, tag = "4") Void: super::Void,
            (message, tag = "5") Value: super::Value,
            (message, tag = "6") Failure: super::Failure,
            (string, tag = "16") InvocationId: String,
            (message, tag = "17") StateKeys: super::StateKeys,
        }
    }
    propose_run_completion_message {
        Result {
            (bytes = "bytes", tag = "14") Value: bytes::Bytes,
            (message, tag = "15") Failure: super::Failure,
        }
    }
    get_state_ephemeral_notification_message {
        Result {
            (message, tag = "4") Void: super::Void,
            (message, tag = "5") Value: super::Value,
        }
    }
    output_command_message {
        Result {
            (message, tag = "14") Value: super::Value,
            (message, tag = "15") Failure: super::Failure,
        }
    }
    get_eager_state_command_message {
        Result {
            (message, tag = "13") Void: super::Void,
            (message, tag = "14") Value: super::Value,
        }
    }
    complete_promise_command_message {
        Completion {
            (message, tag = "2") CompletionValue: super::Value,
            (message, tag = "3") CompletionFailure: super::Failure,
        }
    }
    send_signal_command_message {
        SignalId {
            (uint32, tag = "2") Idx: u32,
            (string, tag = "3") Name: String,
        }
        Result {
            (message, tag = "4") Void: super::Void,
            (message, tag = "5") Value: super::Value,
            (message, tag = "6") Failure: super::Failure,
        }
    }
    attach_invocation_command_message {
        Target {
            (string, tag = "1") InvocationId: String,
            (message, tag = "3") IdempotentRequestTarget: super::IdempotentRequestTarget,
            (message, tag = "4") WorkflowTarget: super::WorkflowTarget,
        }
    }
    get_invocation_output_command_message {
        Target {
            (string, tag = "1") InvocationId: String,
            (message, tag = "3") IdempotentRequestTarget: super::IdempotentRequestTarget,
            (message, tag = "4") WorkflowTarget: super::WorkflowTarget,
        }
    }
    complete_awakeable_command_message {
        Result {
            (message, tag = "2") Value: super::Value,
            (message, tag = "3") Failure: super::Failure,
        }
    }
}

pub(crate) trait RestateMessage: Message + Default {
    fn ty() -> MessageType;
}

pub(crate) trait RestateEncodableMessage: RestateMessage {}

impl<M: RestateMessage> RestateEncodableMessage for M {}

pub(crate) trait NamedCommandMessage {
    fn name(&self) -> String;
}

pub(crate) trait CommandMessageHeaderDiff: std::fmt::Debug {}

/// Whether a command is the recorded one, with or without its payload.
pub(crate) trait CommandMessageHeaderEq {
    fn header_eq(&self, recorded: &Self, ignores_payload: bool) -> bool;
}

macro_rules! types {
    ($($message:ident $ty:ident),* $(,)?) => {$(
        impl RestateMessage for $message {
            fn ty() -> MessageType {
                MessageType::$ty
            }
        }
    )*};
}

types! {
    StartMessage Start, SuspensionMessage Suspension, AwaitingOnMessage AwaitingOn, ErrorMessage Error, EndMessage End,
    ProposeRunCompletionMessage ProposeRunCompletion, ProposeRunCompletionAckMessage ProposeRunCompletionAck,
    GetStateEphemeralCommandMessage GetStateEphemeralCommand, GetStateEphemeralNotificationMessage GetStateEphemeralNotification,
    InputCommandMessage InputCommand, OutputCommandMessage OutputCommand, GetLazyStateCommandMessage GetLazyStateCommand,
    SetStateCommandMessage SetStateCommand, ClearStateCommandMessage ClearStateCommand, ClearAllStateCommandMessage ClearAllStateCommand,
    GetLazyStateKeysCommandMessage GetLazyStateKeysCommand, GetEagerStateCommandMessage GetEagerStateCommand,
    GetEagerStateKeysCommandMessage GetEagerStateKeysCommand, GetPromiseCommandMessage GetPromiseCommand,
    PeekPromiseCommandMessage PeekPromiseCommand, CompletePromiseCommandMessage CompletePromiseCommand, SleepCommandMessage SleepCommand,
    CallCommandMessage CallCommand, OneWayCallCommandMessage OneWayCallCommand, SendSignalCommandMessage SendSignalCommand,
    RunCommandMessage RunCommand, AttachInvocationCommandMessage AttachInvocationCommand,
    GetInvocationOutputCommandMessage GetInvocationOutputCommand, CompleteAwakeableCommandMessage CompleteAwakeableCommand,
}

/// Commands: the field of the name, the fields that are compared always, and the one that is the payload.
macro_rules! commands {
    ($($message:ident($name:ident) $($field:ident)* $(; $payload:ident)?,)*) => {$(
        impl NamedCommandMessage for $message {
            fn name(&self) -> String {
                self.$name.clone()
            }
        }

        impl CommandMessageHeaderDiff for $message {}

        impl CommandMessageHeaderEq for $message {
            #[allow(unused_variables)]
            fn header_eq(&self, recorded: &Self, ignores_payload: bool) -> bool {
                true $(&& self.$field == recorded.$field)* $(&& (ignores_payload || self.$payload == recorded.$payload))?
            }
        }
    )*};
}

commands! {
    InputCommandMessage(name),
    OutputCommandMessage(name) name; result,
    GetLazyStateCommandMessage(name) key result_completion_id name,
    SetStateCommandMessage(name) key name; value,
    ClearStateCommandMessage(name) key name,
    ClearAllStateCommandMessage(name) name,
    GetLazyStateKeysCommandMessage(name) result_completion_id name,
    GetEagerStateCommandMessage(name) key name result,
    GetEagerStateKeysCommandMessage(name) name value,
    GetPromiseCommandMessage(name) key result_completion_id name,
    PeekPromiseCommandMessage(name) key result_completion_id name,
    CompletePromiseCommandMessage(name) key result_completion_id name; completion,
    SleepCommandMessage(name) result_completion_id name,
    CallCommandMessage(name) service_name handler_name headers key idempotency_key scope limit_key invocation_id_notification_idx
        result_completion_id name; parameter,
    OneWayCallCommandMessage(name) service_name handler_name headers key idempotency_key scope limit_key invocation_id_notification_idx
        name; parameter,
    SendSignalCommandMessage(entry_name) target_invocation_id signal_id entry_name; result,
    RunCommandMessage(name) result_completion_id name,
    AttachInvocationCommandMessage(name) target result_completion_id name,
    GetInvocationOutputCommandMessage(name) target result_completion_id name,
    CompleteAwakeableCommandMessage(name) awakeable_id name; result,
}

impl From<Bytes> for Value {
    fn from(content: Bytes) -> Self {
        Self { content }
    }
}

impl From<crate::Header> for Header {
    fn from(it: crate::Header) -> Self {
        let (key, value) = (it.key.into_owned(), it.value.into_owned());
        Self { key, value }
    }
}

impl From<Header> for crate::Header {
    fn from(it: Header) -> Self {
        let (key, value) = (it.key.into(), it.value.into());
        Self { key, value }
    }
}

impl From<crate::TerminalFailure> for Failure {
    fn from(it: crate::TerminalFailure) -> Self {
        let pair = |(key, value)| FailureMetadata { key, value };
        Self {
            code: it.code.into(),
            message: it.message,
            metadata: it.metadata.into_iter().map(pair).collect(),
        }
    }
}

impl From<Failure> for crate::TerminalFailure {
    fn from(it: Failure) -> Self {
        let pair = |it: FailureMetadata| (it.key, it.value);
        Self {
            code: it.code as u16,
            message: it.message,
            metadata: it.metadata.into_iter().map(pair).collect(),
        }
    }
}
