//! What the cases feed, encoded by this crate's messages, which a player can't name. tools/bench adds this module to the original's.

use crate::service_protocol::messages::notification_template::{Id, Result};
use crate::service_protocol::messages::{
    InputCommandMessage, NotificationTemplate, ProposeRunCompletionAckMessage, RestateMessage,
    SleepCommandMessage, StartMessage, StateEntry, Void,
};
use crate::service_protocol::{header, Encoder, MessageType, Version};
use bytes::Bytes;
use prost::Message;

fn put(to: &mut Vec<u8>, message: impl RestateMessage) {
    to.extend_from_slice(&Encoder::new(Version::V7).encode(&message));
}

/// The messages with which an attempt begins. Its state has the keys key0, key1 .. with this value.
pub fn start(to: &mut Vec<u8>, known_entries: u32, partial_state: bool, keys: u32, value: &[u8]) {
    let entry = |i| StateEntry {
        key: format!("key{i}").into(),
        value: value.to_vec().into(),
    };
    let start = StartMessage {
        id: "abc".into(),
        debug_id: "abc".to_owned(),
        known_entries,
        partial_state,
        state_map: (0..keys).map(entry).collect(),
        ..StartMessage::default()
    };
    let input = InputCommandMessage {
        value: Some(Bytes::from("input").into()),
        ..InputCommandMessage::default()
    };
    put(to, start);
    put(to, input);
}

pub fn sleep_command(to: &mut Vec<u8>, id: u32) {
    let sleep = SleepCommandMessage {
        wake_up_time: 1000,
        result_completion_id: id,
        name: String::new(),
    };
    put(to, sleep);
}

/// A notification. The original decodes all types of them alike.
fn notification(to: &mut Vec<u8>, id: Id, result: Result) {
    let (id, result) = (Some(id), Some(result));
    let message = NotificationTemplate { id, result };
    let head = header(MessageType::SleepCompletionNotification, message.encoded_len());
    to.extend_from_slice(&head.to_be_bytes());
    to.extend_from_slice(&message.encode_to_vec());
}

pub fn void(to: &mut Vec<u8>, id: u32) {
    notification(to, Id::CompletionId(id), Result::Void(Void {}));
}

pub fn value(to: &mut Vec<u8>, id: u32, value: &[u8]) {
    let value = Bytes::copy_from_slice(value).into();
    notification(to, Id::CompletionId(id), Result::Value(value));
}

pub fn invocation_id(to: &mut Vec<u8>, id: u32, text: &str) {
    notification(to, Id::CompletionId(id), Result::InvocationId(text.to_owned()));
}

pub fn delivery(to: &mut Vec<u8>, name: &str, value: &[u8]) {
    let value = Bytes::copy_from_slice(value).into();
    notification(to, Id::SignalName(name.to_owned()), Result::Value(value));
}

pub fn acknowledgement(to: &mut Vec<u8>, completion_id: u32) {
    put(to, ProposeRunCompletionAckMessage { completion_id });
}
