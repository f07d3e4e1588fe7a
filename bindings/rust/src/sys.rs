//! The numbers, structs and functions of the library for C. `tools/header --write` writes this file, from `palqytun.h`.
#![allow(missing_docs)]

use std::os::raw::{c_char, c_void};

/// The handle of a VM or of a journal.
pub type Handle = *mut c_void;

pub const LIBRARY: &str = "libpalqytun.so.1";
pub const HOW_TO_MAKE_IT: &str = "./bindings/build makes it, at the top of the repository, or, in some minutes and without a proof, ./bindings/build --unproved";
pub const ANOTHER: &str = "PALQYTUN_LIBRARY may name another";

pub const ABI: u32 = 1;
pub const STACK: u32 = 32768;
pub const DONE: u32 = 0;
pub const NO_MEMORY: u32 = 1;
pub const NO_SESSION: u32 = 2;
pub const NO_VM: u32 = 3;
pub const NO_ROOM: u32 = 4;
pub const REFUSED: u32 = 5;
pub const BAD_TEXT: u32 = 6;
pub const BAD_TREE: u32 = 7;
pub const BAD_NUMBER: u32 = 8;
pub const NO_PART: u32 = 9;
pub const BUSY: u32 = 25;
pub const BAD_HANDLE: u32 = 26;
pub const BAD_POINTER: u32 = 27;
pub const NO_FRAME: u32 = 28;
pub const LAYERED: u32 = 29;
pub const LAYER_OWN: u32 = 0;
pub const LAYER_SHORT: u32 = 1;
pub const LAYER_SHORT_V6: u32 = 2;
pub const SINGLE: u32 = 0;
pub const FIRST_COMPLETED: u32 = 1;
pub const ALL_COMPLETED: u32 = 2;
pub const FIRST_SUCCEEDED_OR_ALL_FAILED: u32 = 3;
pub const ALL_SUCCEEDED_OR_FIRST_FAILED: u32 = 4;
pub const UNKNOWN: u32 = 5;
pub const MINIMUM_VERSION: u32 = 5;
pub const MAXIMUM_VERSION: u32 = 8;
pub const CANCEL_CALLS: u32 = 0;
pub const CANCEL_NOTHING: u32 = 1;
pub const CANCEL_SENDS: u32 = 2;
pub const CANCEL_CALLS_AND_SENDS: u32 = 3;
pub const CANCEL_DISABLED: u32 = 4;
pub const CANCEL_HANDLE: u32 = 1;
pub const CHECKS_ENABLED: u32 = 0;
pub const CHECKS_PAYLOAD_CHECKS_DISABLED: u32 = 1;
pub const AWAITING_DONT_SEND_WHEN_EXECUTING_RUN: u32 = 0;
pub const AWAITING_SEND_ALWAYS: u32 = 1;
pub const AWAITING_DONT_SEND: u32 = 2;
pub const MISMATCH_FOLLOW_RETRY_POLICY: u32 = 0;
pub const MISMATCH_PAUSE: u32 = 1;
pub const MISMATCH_FAIL_TERMINALLY: u32 = 2;
pub const REPLAY_ENABLED: u32 = 0;
pub const REPLAY_DISABLED: u32 = 1;
pub const DELIVERY_QUEUED: u32 = 0;
pub const DELIVERY_OVERWRITE: u32 = 1;
pub const BEHAVIOR_RETRY: u32 = 0;
pub const BEHAVIOR_PAUSE: u32 = 1;
pub const BEHAVIOR_FAIL: u32 = 2;
pub const CODE_BAD_REQUEST: u32 = 400;
pub const CODE_UNSUPPORTED_MEDIA_TYPE: u32 = 415;
pub const CODE_INTERNAL: u32 = 500;
pub const CODE_JOURNAL_MISMATCH: u32 = 570;
pub const CODE_PROTOCOL_VIOLATION: u32 = 571;
pub const CODE_UNSUPPORTED_FEATURE: u32 = 573;
pub const CODE_CLOSED: u32 = 598;
pub const CODE_SUSPENDED: u32 = 599;
pub const RELATED_TO_NONE: u32 = 0;
pub const RELATED_TO_LAST: u32 = 1;
pub const RELATED_TO_NEXT: u32 = 2;
pub const RELATED_TO_SPECIFIC: u32 = 3;
pub const COMMAND_INPUT: u32 = 0;
pub const COMMAND_OUTPUT: u32 = 1;
pub const COMMAND_GET_STATE: u32 = 2;
pub const COMMAND_GET_STATE_KEYS: u32 = 3;
pub const COMMAND_SET_STATE: u32 = 4;
pub const COMMAND_CLEAR_STATE: u32 = 5;
pub const COMMAND_CLEAR_ALL_STATE: u32 = 6;
pub const COMMAND_GET_PROMISE: u32 = 7;
pub const COMMAND_PEEK_PROMISE: u32 = 8;
pub const COMMAND_COMPLETE_PROMISE: u32 = 9;
pub const COMMAND_SLEEP: u32 = 10;
pub const COMMAND_CALL: u32 = 11;
pub const COMMAND_ONE_WAY_CALL: u32 = 12;
pub const COMMAND_SEND_SIGNAL: u32 = 13;
pub const COMMAND_RUN: u32 = 14;
pub const COMMAND_ATTACH_INVOCATION: u32 = 15;
pub const COMMAND_GET_INVOCATION_OUTPUT: u32 = 16;
pub const COMMAND_COMPLETE_AWAKEABLE: u32 = 17;
pub const COMMAND_CANCEL_INVOCATION: u32 = 18;
pub const TARGET_INVOCATION_ID: u32 = 0;
pub const TARGET_WORKFLOW_ID: u32 = 1;
pub const TARGET_IDEMPOTENCY_ID: u32 = 2;
pub const POLICY_INFINITE: u32 = 0;
pub const POLICY_NONE: u32 = 1;
pub const POLICY_FIXED_DELAY: u32 = 2;
pub const POLICY_EXPONENTIAL: u32 = 3;
pub const NOTHING: u32 = 0;
pub const HANDLE: u32 = 1;
pub const AWAKEABLE: u32 = 2;
pub const RUN: u32 = 3;
pub const EPHEMERAL: u32 = 4;
pub const FLAG: u32 = 5;
pub const STATE: u32 = 6;
pub const INDEX: u32 = 7;
pub const VERSION: u32 = 8;
pub const HEAD: u32 = 9;
pub const OUTPUT: u32 = 10;
pub const INPUT: u32 = 11;
pub const AWAKE: u32 = 12;
pub const WAITING: u32 = 13;
pub const EXECUTE_RUN: u32 = 14;
pub const CANCELLED: u32 = 15;
pub const VOID: u32 = 16;
pub const VALUE: u32 = 17;
pub const FAILURE: u32 = 18;
pub const KEYS: u32 = 19;
pub const INVOCATION_ID: u32 = 20;
pub const ERROR: u32 = 21;
pub const SUSPENDED: u32 = 22;
pub const OUT_OF_MEMORY: u32 = 23;
pub const CLOSED: u32 = 24;
pub const STATE_WAITING_PRE_FLIGHT: u32 = 0;
pub const STATE_REPLAYING: u32 = 1;
pub const STATE_PROCESSING: u32 = 2;
pub const STATE_CLOSED: u32 = 3;
pub const BAD_VERSION: u32 = 8;
pub const BAD_OUTPUT: u32 = 10;
pub const NOT_A_NOTIFICATION: u32 = 11;
pub const NO_SUCH_ID: u32 = 12;
pub const SECOND_COMPLETION: u32 = 13;
pub const WRONG_KIND: u32 = 14;
pub const RUN_IS_PROPOSED: u32 = 15;
pub const JOURNAL_FULL: u32 = 16;
pub const BAD_JOURNAL: u32 = 17;
pub const NO_JOURNAL: u32 = 22;
pub const NO_ROW: u32 = 23;
pub const EFFECT_NOTHING: u32 = 0;
pub const EFFECT_BEGIN: u32 = 1;
pub const EFFECT_WAIT: u32 = 2;
pub const EFFECT_SEND: u32 = 3;
pub const EFFECT_RESULT: u32 = 4;
pub const EFFECT_COMMAND: u32 = 5;
pub const NOT_A_FRAME: u32 = 18;
pub const BAD_LINE: u32 = 19;
pub const NO_RESULT: u32 = 20;
pub const NOT_A_SUSPENSION: u32 = 21;
pub const NOT_FRAMES: u32 = 24;
pub const COMPLETION: u32 = 0;
pub const SIGNAL: u32 = 1;
pub const NAMED_SIGNAL: u32 = 2;
pub const MESSAGE_START: u32 = 1;
pub const MESSAGE_SUSPENSION: u32 = 2;
pub const MESSAGE_ERROR: u32 = 3;
pub const MESSAGE_END: u32 = 4;
pub const MESSAGE_PROPOSE_RUN_COMPLETION: u32 = 5;
pub const MESSAGE_PROPOSE_RUN_COMPLETION_ACK: u32 = 6;
pub const MESSAGE_AWAITING_ON: u32 = 7;
pub const MESSAGE_GET_STATE_EPHEMERAL_COMMAND: u32 = 8;
pub const MESSAGE_GET_STATE_EPHEMERAL_NOTIFICATION: u32 = 9;
pub const MESSAGE_INPUT_COMMAND: u32 = 10;
pub const MESSAGE_GET_EAGER_STATE_COMMAND: u32 = 11;
pub const MESSAGE_GET_LAZY_STATE_COMMAND: u32 = 12;
pub const MESSAGE_GET_EAGER_STATE_KEYS_COMMAND: u32 = 13;
pub const MESSAGE_GET_LAZY_STATE_KEYS_COMMAND: u32 = 14;
pub const MESSAGE_SET_STATE_COMMAND: u32 = 15;
pub const MESSAGE_CLEAR_STATE_COMMAND: u32 = 16;
pub const MESSAGE_CLEAR_ALL_STATE_COMMAND: u32 = 17;
pub const MESSAGE_SLEEP_COMMAND: u32 = 18;
pub const MESSAGE_CALL_COMMAND: u32 = 19;
pub const MESSAGE_ONE_WAY_CALL_COMMAND: u32 = 20;
pub const MESSAGE_COMPLETE_AWAKEABLE_COMMAND: u32 = 21;
pub const MESSAGE_SEND_SIGNAL_COMMAND: u32 = 22;
pub const MESSAGE_GET_PROMISE_COMMAND: u32 = 23;
pub const MESSAGE_PEEK_PROMISE_COMMAND: u32 = 24;
pub const MESSAGE_COMPLETE_PROMISE_COMMAND: u32 = 25;
pub const MESSAGE_RUN_COMMAND: u32 = 26;
pub const MESSAGE_ATTACH_INVOCATION_COMMAND: u32 = 27;
pub const MESSAGE_GET_INVOCATION_OUTPUT_COMMAND: u32 = 28;
pub const MESSAGE_OUTPUT_COMMAND: u32 = 29;
pub const MESSAGE_NOTIFICATION: u32 = 30;
pub const NO_RESULT_THERE: u32 = 0;
pub const RESULT_VOID: u32 = 1;
pub const RESULT_VALUE: u32 = 2;
pub const RESULT_FAILURE: u32 = 3;
pub const RESULT_KEYS: u32 = 4;
pub const RESULT_INVOCATION_ID: u32 = 5;

/// How a call ended.
#[derive(Clone, Copy, Debug, PartialEq, Eq, Hash)]
#[repr(u32)]
pub enum Status {
    /// the call was made
    Done = 0,
    /// no memory was found
    NoMemory = 1,
    /// the VM was closed
    NoSession = 2,
    /// there is no VM
    NoVm = 3,
    /// the buffer is too short
    NoRoom = 4,
    /// the VM refused the call
    Refused = 5,
    /// a text isn't UTF-8
    BadText = 6,
    /// the nodes aren't one tree
    BadTree = 7,
    /// a number names no case of what it is to name
    BadNumber = 8,
    /// there is no such part
    NoPart = 9,
    /// the output isn't whole frames
    BadOutput = 10,
    /// it isn't one whole frame of a notification
    NotANotification = 11,
    /// no stored command has the completion id
    NoSuchId = 12,
    /// the completion id was completed before
    SecondCompletion = 13,
    /// the id of an invocation is completed by something else
    WrongKind = 14,
    /// the result of a run is proposed by the attempt that ran it
    RunIsProposed = 15,
    /// the journal is full
    JournalFull = 16,
    /// it isn't one whole frame of a command or a notification, or the first one isn't an Input
    BadJournal = 17,
    /// it isn't one whole frame
    NotAFrame = 18,
    /// the line has no meaning
    BadLine = 19,
    /// the frame has no result
    NoResult = 20,
    /// the frame isn't one of a suspension
    NotASuspension = 21,
    /// the journal was closed
    NoJournal = 22,
    /// the last store has no such row
    NoRow = 23,
    /// the notifications aren't whole frames
    NotFrames = 24,
    /// a call of another thread has not ended; let a lock guard it
    Busy = 25,
    /// the handle is of something else
    BadHandle = 26,
    /// a pointer is NULL that may not be
    BadPointer = 27,
    /// the next message has no frame in the layer of the peer
    NoFrame = 28,
    /// the peer speaks another layer, and the call is in the own bytes of the VM
    Layered = 29,
}

impl Status {
    /// The status of this number, if there is one.
    pub fn of_number(number: u32) -> Option<Self> {
        match number {
            0 => Some(Self::Done),
            1 => Some(Self::NoMemory),
            2 => Some(Self::NoSession),
            3 => Some(Self::NoVm),
            4 => Some(Self::NoRoom),
            5 => Some(Self::Refused),
            6 => Some(Self::BadText),
            7 => Some(Self::BadTree),
            8 => Some(Self::BadNumber),
            9 => Some(Self::NoPart),
            10 => Some(Self::BadOutput),
            11 => Some(Self::NotANotification),
            12 => Some(Self::NoSuchId),
            13 => Some(Self::SecondCompletion),
            14 => Some(Self::WrongKind),
            15 => Some(Self::RunIsProposed),
            16 => Some(Self::JournalFull),
            17 => Some(Self::BadJournal),
            18 => Some(Self::NotAFrame),
            19 => Some(Self::BadLine),
            20 => Some(Self::NoResult),
            21 => Some(Self::NotASuspension),
            22 => Some(Self::NoJournal),
            23 => Some(Self::NoRow),
            24 => Some(Self::NotFrames),
            25 => Some(Self::Busy),
            26 => Some(Self::BadHandle),
            27 => Some(Self::BadPointer),
            28 => Some(Self::NoFrame),
            29 => Some(Self::Layered),
            _ => None,
        }
    }

    /// What it says.
    pub fn text(self) -> &'static str {
        match self {
            Self::Done => "the call was made",
            Self::NoMemory => "no memory was found",
            Self::NoSession => "the VM was closed",
            Self::NoVm => "there is no VM",
            Self::NoRoom => "the buffer is too short",
            Self::Refused => "the VM refused the call",
            Self::BadText => "a text isn't UTF-8",
            Self::BadTree => "the nodes aren't one tree",
            Self::BadNumber => "a number names no case of what it is to name",
            Self::NoPart => "there is no such part",
            Self::BadOutput => "the output isn't whole frames",
            Self::NotANotification => "it isn't one whole frame of a notification",
            Self::NoSuchId => "no stored command has the completion id",
            Self::SecondCompletion => "the completion id was completed before",
            Self::WrongKind => "the id of an invocation is completed by something else",
            Self::RunIsProposed => "the result of a run is proposed by the attempt that ran it",
            Self::JournalFull => "the journal is full",
            Self::BadJournal => "it isn't one whole frame of a command or a notification, or the first one isn't an Input",
            Self::NotAFrame => "it isn't one whole frame",
            Self::BadLine => "the line has no meaning",
            Self::NoResult => "the frame has no result",
            Self::NotASuspension => "the frame isn't one of a suspension",
            Self::NoJournal => "the journal was closed",
            Self::NoRow => "the last store has no such row",
            Self::NotFrames => "the notifications aren't whole frames",
            Self::Busy => "a call of another thread has not ended; let a lock guard it",
            Self::BadHandle => "the handle is of something else",
            Self::BadPointer => "a pointer is NULL that may not be",
            Self::NoFrame => "the next message has no frame in the layer of the peer",
            Self::Layered => "the peer speaks another layer, and the call is in the own bytes of the VM",
        }
    }
}

/// What a cancelled await cancels; or the cancel signal ends no await.
#[derive(Clone, Copy, Debug, PartialEq, Eq, Hash)]
#[repr(u32)]
pub enum ImplicitCancellation {
    Calls = 0,
    Nothing = 1,
    Sends = 2,
    CallsAndSends = 3,
    Disabled = 4,
}

impl ImplicitCancellation {
    /// The case of this number, if there is one.
    pub fn of_number(number: u32) -> Option<Self> {
        match number {
            0 => Some(Self::Calls),
            1 => Some(Self::Nothing),
            2 => Some(Self::Sends),
            3 => Some(Self::CallsAndSends),
            4 => Some(Self::Disabled),
            _ => None,
        }
    }
}

/// Whether replay compares payloads.
#[derive(Clone, Copy, Debug, PartialEq, Eq, Hash)]
#[repr(u32)]
pub enum NonDeterministicChecks {
    Enabled = 0,
    PayloadChecksDisabled = 1,
}

impl NonDeterministicChecks {
    /// The case of this number, if there is one.
    pub fn of_number(number: u32) -> Option<Self> {
        match number {
            0 => Some(Self::Enabled),
            1 => Some(Self::PayloadChecksDisabled),
            _ => None,
        }
    }
}

/// When an await that waits for input says what it waits for.
#[derive(Clone, Copy, Debug, PartialEq, Eq, Hash)]
#[repr(u32)]
pub enum AwaitingOnPolicy {
    DontSendWhenExecutingRun = 0,
    SendAlways = 1,
    DontSend = 2,
}

impl AwaitingOnPolicy {
    /// The case of this number, if there is one.
    pub fn of_number(number: u32) -> Option<Self> {
        match number {
            0 => Some(Self::DontSendWhenExecutingRun),
            1 => Some(Self::SendAlways),
            2 => Some(Self::DontSend),
            _ => None,
        }
    }
}

/// What becomes of an invocation whose journal doesn't fit its handler.
#[derive(Clone, Copy, Debug, PartialEq, Eq, Hash)]
#[repr(u32)]
pub enum JournalMismatchRetryBehavior {
    FollowRetryPolicy = 0,
    Pause = 1,
    FailTerminally = 2,
}

impl JournalMismatchRetryBehavior {
    /// The case of this number, if there is one.
    pub fn of_number(number: u32) -> Option<Self> {
        match number {
            0 => Some(Self::FollowRetryPolicy),
            1 => Some(Self::Pause),
            2 => Some(Self::FailTerminally),
            _ => None,
        }
    }
}

/// Whether recorded commands are replayed, or skipped.
#[derive(Clone, Copy, Debug, PartialEq, Eq, Hash)]
#[repr(u32)]
pub enum JournalReplay {
    Enabled = 0,
    Disabled = 1,
}

impl JournalReplay {
    /// The case of this number, if there is one.
    pub fn of_number(number: u32) -> Option<Self> {
        match number {
            0 => Some(Self::Enabled),
            1 => Some(Self::Disabled),
            _ => None,
        }
    }
}

/// Several deliveries of one signal queue up, or the newest replaces the others.
#[derive(Clone, Copy, Debug, PartialEq, Eq, Hash)]
#[repr(u32)]
pub enum SignalDelivery {
    Queued = 0,
    Overwrite = 1,
}

impl SignalDelivery {
    /// The case of this number, if there is one.
    pub fn of_number(number: u32) -> Option<Self> {
        match number {
            0 => Some(Self::Queued),
            1 => Some(Self::Overwrite),
            _ => None,
        }
    }
}

/// What is done after an error.
#[derive(Clone, Copy, Debug, PartialEq, Eq, Hash)]
#[repr(u32)]
pub enum ErrorBehavior {
    Retry = 0,
    Pause = 1,
    Fail = 2,
}

impl ErrorBehavior {
    /// The case of this number, if there is one.
    pub fn of_number(number: u32) -> Option<Self> {
        match number {
            0 => Some(Self::Retry),
            1 => Some(Self::Pause),
            2 => Some(Self::Fail),
            _ => None,
        }
    }
}

/// What a command is.
#[derive(Clone, Copy, Debug, PartialEq, Eq, Hash)]
#[repr(u32)]
pub enum CommandType {
    Input = 0,
    Output = 1,
    GetState = 2,
    GetStateKeys = 3,
    SetState = 4,
    ClearState = 5,
    ClearAllState = 6,
    GetPromise = 7,
    PeekPromise = 8,
    CompletePromise = 9,
    Sleep = 10,
    Call = 11,
    OneWayCall = 12,
    SendSignal = 13,
    Run = 14,
    AttachInvocation = 15,
    GetInvocationOutput = 16,
    CompleteAwakeable = 17,
    CancelInvocation = 18,
}

impl CommandType {
    /// The case of this number, if there is one.
    pub fn of_number(number: u32) -> Option<Self> {
        match number {
            0 => Some(Self::Input),
            1 => Some(Self::Output),
            2 => Some(Self::GetState),
            3 => Some(Self::GetStateKeys),
            4 => Some(Self::SetState),
            5 => Some(Self::ClearState),
            6 => Some(Self::ClearAllState),
            7 => Some(Self::GetPromise),
            8 => Some(Self::PeekPromise),
            9 => Some(Self::CompletePromise),
            10 => Some(Self::Sleep),
            11 => Some(Self::Call),
            12 => Some(Self::OneWayCall),
            13 => Some(Self::SendSignal),
            14 => Some(Self::Run),
            15 => Some(Self::AttachInvocation),
            16 => Some(Self::GetInvocationOutput),
            17 => Some(Self::CompleteAwakeable),
            18 => Some(Self::CancelInvocation),
            _ => None,
        }
    }
}

/// The state of a VM.
#[derive(Clone, Copy, Debug, PartialEq, Eq, Hash)]
#[repr(u32)]
pub enum State {
    WaitingPreFlight = 0,
    Replaying = 1,
    Processing = 2,
    Closed = 3,
}

impl State {
    /// The case of this number, if there is one.
    pub fn of_number(number: u32) -> Option<Self> {
        match number {
            0 => Some(Self::WaitingPreFlight),
            1 => Some(Self::Replaying),
            2 => Some(Self::Processing),
            3 => Some(Self::Closed),
            _ => None,
        }
    }
}

/// The type of a message.
#[derive(Clone, Copy, Debug, PartialEq, Eq, Hash)]
#[repr(u32)]
pub enum MessageType {
    Start = 1,
    Suspension = 2,
    Error = 3,
    End = 4,
    ProposeRunCompletion = 5,
    ProposeRunCompletionAck = 6,
    AwaitingOn = 7,
    GetStateEphemeralCommand = 8,
    GetStateEphemeralNotification = 9,
    InputCommand = 10,
    GetEagerStateCommand = 11,
    GetLazyStateCommand = 12,
    GetEagerStateKeysCommand = 13,
    GetLazyStateKeysCommand = 14,
    SetStateCommand = 15,
    ClearStateCommand = 16,
    ClearAllStateCommand = 17,
    SleepCommand = 18,
    CallCommand = 19,
    OneWayCallCommand = 20,
    CompleteAwakeableCommand = 21,
    SendSignalCommand = 22,
    GetPromiseCommand = 23,
    PeekPromiseCommand = 24,
    CompletePromiseCommand = 25,
    RunCommand = 26,
    AttachInvocationCommand = 27,
    GetInvocationOutputCommand = 28,
    OutputCommand = 29,
    Notification = 30,
}

impl MessageType {
    /// The case of this number, if there is one.
    pub fn of_number(number: u32) -> Option<Self> {
        match number {
            1 => Some(Self::Start),
            2 => Some(Self::Suspension),
            3 => Some(Self::Error),
            4 => Some(Self::End),
            5 => Some(Self::ProposeRunCompletion),
            6 => Some(Self::ProposeRunCompletionAck),
            7 => Some(Self::AwaitingOn),
            8 => Some(Self::GetStateEphemeralCommand),
            9 => Some(Self::GetStateEphemeralNotification),
            10 => Some(Self::InputCommand),
            11 => Some(Self::GetEagerStateCommand),
            12 => Some(Self::GetLazyStateCommand),
            13 => Some(Self::GetEagerStateKeysCommand),
            14 => Some(Self::GetLazyStateKeysCommand),
            15 => Some(Self::SetStateCommand),
            16 => Some(Self::ClearStateCommand),
            17 => Some(Self::ClearAllStateCommand),
            18 => Some(Self::SleepCommand),
            19 => Some(Self::CallCommand),
            20 => Some(Self::OneWayCallCommand),
            21 => Some(Self::CompleteAwakeableCommand),
            22 => Some(Self::SendSignalCommand),
            23 => Some(Self::GetPromiseCommand),
            24 => Some(Self::PeekPromiseCommand),
            25 => Some(Self::CompletePromiseCommand),
            26 => Some(Self::RunCommand),
            27 => Some(Self::AttachInvocationCommand),
            28 => Some(Self::GetInvocationOutputCommand),
            29 => Some(Self::OutputCommand),
            30 => Some(Self::Notification),
            _ => None,
        }
    }
}

#[derive(Clone, Copy, Debug)]
#[repr(C)]
pub struct Told {
    pub status: u32,
    pub len: usize,
}

#[derive(Clone, Copy, Debug)]
#[repr(C)]
pub struct Bytes {
    pub at: *const u8,
    pub len: usize,
}

#[derive(Clone, Copy, Debug)]
#[repr(C)]
pub struct Optional {
    pub is_given: bool,
    pub bytes: Bytes,
}

#[derive(Clone, Copy, Debug)]
#[repr(C)]
pub struct Pair {
    pub key: Bytes,
    pub value: Bytes,
}

#[derive(Clone, Copy, Debug)]
#[repr(C)]
pub struct Value {
    pub is_failure: bool,
    pub code: u16,
    pub bytes: Bytes,
    pub metadata: *const Pair,
    pub metadata_len: usize,
}

#[derive(Clone, Copy, Debug)]
#[repr(C)]
pub struct Target {
    pub service: Bytes,
    pub handler: Bytes,
    pub key: Optional,
    pub idempotency_key: Optional,
    pub scope: Optional,
    pub limit_key: Optional,
    pub headers: *const Pair,
    pub headers_len: usize,
}

#[derive(Clone, Copy, Debug)]
#[repr(C)]
pub struct Node {
    pub kind: u32,
    pub number: u32,
}

#[derive(Clone, Copy, Debug)]
#[repr(C)]
pub struct Options {
    pub cancellation: u32,
    pub checks: u32,
    pub awaiting: u32,
    pub mismatch: u32,
    pub replay: u32,
    pub delivery: u32,
    pub seed: u64,
}

#[derive(Clone, Copy, Debug)]
#[repr(C)]
pub struct Error {
    pub code: u16,
    pub behavior: u32,
    pub message: Bytes,
    pub stacktrace: Bytes,
    pub has_delay: bool,
    pub delay_millis: u64,
}

#[derive(Clone, Copy, Debug)]
#[repr(C)]
pub struct Command {
    pub kind: u32,
    pub index: u32,
    pub r#type: u32,
    pub name: Optional,
}

#[derive(Clone, Copy, Debug)]
#[repr(C)]
pub struct Invocation {
    pub kind: u32,
    pub name: Bytes,
    pub key: Bytes,
    pub handler: Bytes,
    pub service_key: Optional,
    pub scope: Optional,
}

#[derive(Clone, Copy, Debug)]
#[repr(C)]
pub struct Policy {
    pub kind: u32,
    pub initial_millis: u64,
    pub numerator: u32,
    pub denominator: u32,
    pub has_interval: bool,
    pub interval_millis: u64,
    pub has_attempts: bool,
    pub attempts: u32,
    pub has_duration: bool,
    pub duration_millis: u64,
    pub pauses: bool,
}

#[derive(Clone, Copy, Debug)]
#[repr(C)]
pub struct Replied {
    pub status: u32,
    pub kind: u32,
    pub first: u32,
    pub second: u32,
    pub third: u32,
    pub number: u64,
    pub rows: usize,
    pub len: usize,
}

#[derive(Clone, Copy, Debug)]
#[repr(C)]
pub struct Retry {
    pub status: u32,
    pub behavior: u32,
    pub has_delay: bool,
    pub delay_millis: u64,
}

#[derive(Clone, Copy, Debug)]
#[repr(C)]
pub struct Row {
    pub status: u32,
    pub r#type: u32,
    pub is_completion: bool,
    pub completes: u32,
    pub len: usize,
}

#[derive(Clone, Copy, Debug)]
#[repr(C)]
pub struct Stored {
    pub status: u32,
    pub rows: usize,
    pub feed: usize,
}

#[derive(Clone, Copy, Debug)]
#[repr(C)]
pub struct Effect {
    pub status: u32,
    pub kind: u32,
    pub is_awaited: bool,
    pub completes: u32,
    pub id_completes: u32,
    pub target: u32,
    pub time: u64,
    pub headers: usize,
}

#[derive(Clone, Copy, Debug)]
#[repr(C)]
pub struct Judged {
    pub status: u32,
    pub is_awake: bool,
}

#[derive(Clone, Copy, Debug)]
#[repr(C)]
pub struct FrameRow {
    pub status: u32,
    pub r#type: u32,
    pub kind: u32,
    pub result: u32,
    pub id: u32,
    pub second: u32,
    pub number: u64,
    pub rows: usize,
}

#[derive(Clone, Copy, Debug)]
#[repr(C)]
pub struct Compared {
    pub status: u32,
    pub is_recorded: bool,
    pub recorded: u32,
    pub is_asked: bool,
    pub asked: u32,
    pub is_lazy: bool,
}

macro_rules! functions {
    ($($name:ident = $symbol:literal: ($($taken:ty),*) -> $result:ty;)*) => {
        /// The functions of a library, by their names without `palqytun_`.
        #[derive(Clone, Copy)]
        pub struct Functions {
            $(pub $name: unsafe extern "C" fn($($taken),*) -> $result,)*
        }

        impl Functions {
            /// The functions of which `address` gives the addresses. `Err` is the name of one that has none.
            ///
            /// # Safety
            ///
            /// An address that isn't null is that of the function of this name in a library with this interface.
            pub unsafe fn find(address: impl Fn(&'static str) -> *mut c_void) -> Result<Functions, &'static str> {
                Ok(Functions {
                    $($name: {
                        let found = address($symbol);
                        if found.is_null() {
                            return Err($symbol);
                        }
                        std::mem::transmute::<*mut c_void, unsafe extern "C" fn($($taken),*) -> $result>(found)
                    },)*
                })
            }
        }
    };
}

functions! {
    open = "palqytun_open\0": (*mut Handle) -> u32;
    open_over = "palqytun_open_over\0": (*mut Handle, u32) -> u32;
    line = "palqytun_line\0": (Handle, *const u8, usize) -> Told;
    answer = "palqytun_answer\0": (Handle, *mut u8, usize) -> Told;
    feed = "palqytun_feed\0": (Handle, *const u8, usize) -> u32;
    take_output = "palqytun_take_output\0": (Handle, *mut u8, usize) -> Told;
    close = "palqytun_close\0": (Handle) -> u32;
    part = "palqytun_part\0": (Handle, usize, *mut u8, usize) -> Told;
    next_retry = "palqytun_next_retry\0": (Handle) -> Retry;
    lend_output = "palqytun_lend_output\0": (Handle, *mut Bytes) -> u32;
    make = "palqytun_make\0": (Handle, Optional, *const Options) -> Replied;
    is_ready = "palqytun_is_ready\0": (Handle) -> Replied;
    head = "palqytun_head\0": (Handle) -> Replied;
    close_input = "palqytun_close_input\0": (Handle) -> Replied;
    output = "palqytun_output\0": (Handle) -> Replied;
    state = "palqytun_state\0": (Handle) -> Replied;
    last_command_index = "palqytun_last_command_index\0": (Handle) -> Replied;
    describe = "palqytun_describe\0": (Handle, *mut u8, usize) -> Told;
    report_error = "palqytun_report_error\0": (Handle, *const Error, *const Command) -> Replied;
    input = "palqytun_input\0": (Handle) -> Replied;
    r#await = "palqytun_await\0": (Handle, u32) -> Replied;
    await_tree = "palqytun_await_tree\0": (Handle, *const Node, usize) -> Replied;
    take = "palqytun_take\0": (Handle, u32) -> Replied;
    is_completed = "palqytun_is_completed\0": (Handle, u32) -> Replied;
    sleep = "palqytun_sleep\0": (Handle, Bytes, u64) -> Replied;
    state_get = "palqytun_state_get\0": (Handle, Bytes, Bytes) -> Replied;
    state_get_keys = "palqytun_state_get_keys\0": (Handle, Bytes) -> Replied;
    state_set = "palqytun_state_set\0": (Handle, Bytes, Bytes, Bytes, bool) -> Replied;
    state_clear = "palqytun_state_clear\0": (Handle, Bytes, Bytes) -> Replied;
    state_clear_all = "palqytun_state_clear_all\0": (Handle, Bytes) -> Replied;
    ephemeral_state_get = "palqytun_ephemeral_state_get\0": (Handle, Bytes) -> Replied;
    take_ephemeral = "palqytun_take_ephemeral\0": (Handle, u32) -> Replied;
    call = "palqytun_call\0": (Handle, *const Target, Bytes, Bytes, bool) -> Replied;
    call_with_deadline = "palqytun_call_with_deadline\0": (Handle, *const Target, Bytes, u64, Bytes, bool) -> Replied;
    send = "palqytun_send\0": (Handle, *const Target, Bytes, u64, Bytes, bool) -> Replied;
    cancel_invocation = "palqytun_cancel_invocation\0": (Handle, Bytes) -> Replied;
    attach = "palqytun_attach\0": (Handle, *const Invocation) -> Replied;
    get_output = "palqytun_get_output\0": (Handle, *const Invocation) -> Replied;
    awakeable = "palqytun_awakeable\0": (Handle) -> Replied;
    complete_awakeable = "palqytun_complete_awakeable\0": (Handle, Bytes, *const Value, bool) -> Replied;
    signal = "palqytun_signal\0": (Handle, Bytes) -> Replied;
    complete_signal = "palqytun_complete_signal\0": (Handle, Bytes, Bytes, *const Value) -> Replied;
    get_promise = "palqytun_get_promise\0": (Handle, Bytes) -> Replied;
    peek_promise = "palqytun_peek_promise\0": (Handle, Bytes) -> Replied;
    complete_promise = "palqytun_complete_promise\0": (Handle, Bytes, *const Value, bool) -> Replied;
    run = "palqytun_run\0": (Handle, Bytes) -> Replied;
    propose = "palqytun_propose\0": (Handle, u32, *const Value, *const Policy) -> Replied;
    propose_retryable = "palqytun_propose_retryable\0": (Handle, u32, u64, *const Error, *const Policy) -> Replied;
    write_output = "palqytun_write_output\0": (Handle, *const Value, bool) -> Replied;
    end = "palqytun_end\0": (Handle) -> Replied;
    journal_open = "palqytun_journal_open\0": (*mut Handle) -> u32;
    journal_close = "palqytun_journal_close\0": (Handle) -> u32;
    journal_entries = "palqytun_journal_entries\0": (Handle) -> Told;
    journal_entry = "palqytun_journal_entry\0": (Handle, *const u8, usize) -> Row;
    journal_arrive = "palqytun_journal_arrive\0": (Handle, *const u8, usize) -> Row;
    journal_store = "palqytun_journal_store\0": (Handle, u32, *const u8, usize) -> Stored;
    journal_row = "palqytun_journal_row\0": (Handle, usize) -> Row;
    journal_frame = "palqytun_journal_frame\0": (Handle, usize, *mut u8, usize) -> Told;
    journal_effect = "palqytun_journal_effect\0": (Handle, usize) -> Effect;
    journal_effect_part = "palqytun_journal_effect_part\0": (Handle, usize, usize, *mut u8, usize) -> Told;
    journal_answer = "palqytun_journal_answer\0": (Handle, *mut u8, usize) -> Told;
    journal_keep = "palqytun_journal_keep\0": (Handle) -> u32;
    journal_undo = "palqytun_journal_undo\0": (Handle) -> u32;
    frame_line = "palqytun_frame_line\0": (*const u8, usize, *mut u8, usize) -> Told;
    line_frame = "palqytun_line_frame\0": (*const u8, usize, *mut u8, usize) -> Told;
    notification = "palqytun_notification\0": (u32, u32, *const u8, usize, *const u8, usize, *mut u8, usize) -> Told;
    is_awake = "palqytun_is_awake\0": (*const u8, usize, *const u8, usize) -> Judged;
    frame_read = "palqytun_frame_read\0": (*const u8, usize) -> FrameRow;
    frame_part = "palqytun_frame_part\0": (*const u8, usize, usize, *mut u8, usize) -> Told;
    value_frame = "palqytun_value_frame\0": (*const u8, usize, *mut u8, usize) -> Told;
    input_frame = "palqytun_input_frame\0": (*const u8, usize, *const u8, usize, *mut u8, usize) -> Told;
    difference = "palqytun_difference\0": (*const u8, usize, *const u8, usize, bool, *mut u8, usize) -> Told;
    mismatch = "palqytun_mismatch\0": (*const u8, usize, u32, u32) -> Compared;
    mismatch_part = "palqytun_mismatch_part\0": (*const u8, usize, u32, u32, *const u8, usize, bool, usize, *mut u8, usize) -> Told;
    status_name = "palqytun_status_name\0": (u32) -> *const c_char;
    status_text = "palqytun_status_text\0": (u32) -> *const c_char;
    code_name = "palqytun_code_name\0": (u32) -> *const c_char;
    abi = "palqytun_abi\0": () -> u32;
    version = "palqytun_version\0": () -> *const c_char;
    build = "palqytun_build\0": () -> *const c_char;
    is_proved = "palqytun_is_proved\0": () -> bool;
}
