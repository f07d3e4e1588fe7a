//! How messages stand in the stream: eight bytes of type, flags and length, and then the message as prost encodes it. A message is encoded into a
//! buffer of its own, and decoded from bytes that the stream lends.

use super::messages::{NotificationTemplate, RestateEncodableMessage, RestateMessage};
use super::{DecodingError, MessageType, Notification, Version};
use crate::vm::errors::CommandTypeMismatchError;
use bytes::{Buf, BufMut, Bytes, BytesMut};
use bytes_utils::SegmentedBuf;
use prost::Message;

const HEADER: usize = 8;

/// The header of a message of this type and length, without flags.
pub(crate) fn header(ty: MessageType, len: usize) -> u64 {
    u64::from(u16::from(ty)) << 48 | len as u64
}

pub(crate) struct Encoder;

impl Encoder {
    pub(crate) fn new(_version: Version) -> Self {
        Self
    }

    pub(crate) fn encode<M: RestateEncodableMessage>(&self, message: &M) -> Bytes {
        let len = message.encoded_len();
        let mut bytes = BytesMut::with_capacity(HEADER + len);
        bytes.put_u64(header(M::ty(), len));
        message.encode(&mut bytes).expect("room was made");
        bytes.freeze()
    }
}

/// Cuts the stream into messages. `head` is that of a message that hasn't come whole.
pub(crate) struct Decoder {
    stream: SegmentedBuf<Bytes>,
    head: Option<(MessageType, usize)>,
}

impl Decoder {
    pub(crate) fn new(_version: Version) -> Self {
        Self {
            stream: SegmentedBuf::default(),
            head: None,
        }
    }

    pub(crate) fn push(&mut self, bytes: Bytes) {
        self.stream.push(bytes);
    }

    /// The next message that has come whole.
    pub(crate) fn consume_next(&mut self) -> Result<Option<RawMessage>, DecodingError> {
        let (ty, len) = match self.head {
            Some(it) => it,
            None if self.stream.remaining() < HEADER => return Ok(None),
            None => {
                let word = self.stream.get_u64();
                let ty = MessageType::try_from((word >> 48) as u16)?;
                *self.head.insert((ty, word as u32 as usize))
            }
        };
        if self.stream.remaining() < len {
            return Ok(None);
        }
        self.head = None;
        let body = self.stream.copy_to_bytes(len);
        Ok(Some(RawMessage { ty, body }))
    }
}

/// A message that isn't decoded yet.
#[derive(Debug, Clone)]
pub(crate) struct RawMessage {
    ty: MessageType,
    body: Bytes,
}

impl RawMessage {
    pub(crate) fn ty(&self) -> MessageType {
        self.ty
    }

    pub(crate) fn decode_to<M: RestateMessage>(self, index: i64) -> Result<M, crate::Error> {
        if self.ty == M::ty() {
            Ok(M::decode(self.body).map_err(DecodingError::from)?)
        } else {
            Err(CommandTypeMismatchError::new(index, self.ty, M::ty()).into())
        }
    }

    pub(crate) fn decode_as_notification(self) -> Result<Notification, DecodingError> {
        let decoded = NotificationTemplate::decode(self.body)?;
        let id = decoded.id.ok_or(DecodingError::NoField("id"))?;
        let result = decoded.result.ok_or(DecodingError::NoField("result"))?;
        Ok(Notification {
            id: id.into(),
            result: result.into(),
        })
    }
}
