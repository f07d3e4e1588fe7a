//! Frames beside a journal: each as its line (docs/FRAMES.md) and back, its result as a notification, and whether a suspension is awake;
//! and what a frame says as numbers and parts, without text.
//!
//! ```
//! use palqytun::frames::{completion, frame_of, is_awake, line_of};
//! let completed = completion(3, &frame_of(r#"Output result=value("Till")"#)?)?;
//! assert_eq!(line_of(&completed)?, r#"Notification id=completion(3) result=value("Till")"#);
//! let suspension = frame_of("Suspension future=(kind=FirstCompleted completions=[3])")?;
//! assert!(!is_awake(&suspension, &[])?);
//! assert!(is_awake(&suspension, &completed)?);
//! # Ok::<(), palqytun::Error>(())
//! ```
//!
//! # Errors
//!
//! Each function fails by [`Error::Status`](crate::Error::Status) if it was given what isn't a frame, or no frame of what it wants.

use crate::error::Result;
use crate::library::library;
use crate::sys::{self, MessageType};
use crate::vm::{done, may_be_written, utf8, written};

/// The line of a frame.
pub fn line_of(frame: &[u8]) -> Result<String> {
    let call = library()?.functions.frame_line;
    // SAFETY: each pointer is valid for its length; so it is below.
    written(|at, len| unsafe { call(frame.as_ptr(), frame.len(), at, len) }).map(utf8)
}

/// The frame that a line shows.
pub fn frame_of(line: &str) -> Result<Vec<u8>> {
    let call = library()?.functions.line_frame;
    written(|at, len| unsafe { call(line.as_ptr(), line.len(), at, len) })
}

fn notification(kind: u32, id: u32, name: &str, frame: &[u8]) -> Result<Vec<u8>> {
    let call = library()?.functions.notification;
    written(|at, len| unsafe { call(kind, id, name.as_ptr(), name.len(), frame.as_ptr(), frame.len(), at, len) })
}

/// The notification that completes an id, with the result that a frame has: an output, a notification, the proposal of a run, or the
/// completion of an awakeable, a signal or a promise.
pub fn completion(id: u32, frame: &[u8]) -> Result<Vec<u8>> {
    notification(sys::COMPLETION, id, "", frame)
}

/// The notification of the signal with this number, with the result that a frame has.
pub fn signal(index: u32, frame: &[u8]) -> Result<Vec<u8>> {
    notification(sys::SIGNAL, index, "", frame)
}

/// The notification of the signal with this name, with the result that a frame has.
pub fn named_signal(name: &str, frame: &[u8]) -> Result<Vec<u8>> {
    notification(sys::NAMED_SIGNAL, 0, name, frame)
}

/// A frame that has these bytes as its result: the notification of completion 0.
pub fn value_frame(value: &[u8]) -> Result<Vec<u8>> {
    let call = library()?.functions.value_frame;
    written(|at, len| unsafe { call(value.as_ptr(), value.len(), at, len) })
}

/// The frame of an input, with this value instead of its own.
pub fn input_frame(frame: &[u8], value: &[u8]) -> Result<Vec<u8>> {
    let call = library()?.functions.input_frame;
    written(|at, len| unsafe { call(frame.as_ptr(), frame.len(), value.as_ptr(), value.len(), at, len) })
}

/// Whether the future of a suspension is awake by the notifications among these frames, of which the first of each id counts.
pub fn is_awake(suspension: &[u8], notifications: &[u8]) -> Result<bool> {
    let call = library()?.functions.is_awake;
    // SAFETY: each pointer is valid for its length.
    let judged = unsafe { call(suspension.as_ptr(), suspension.len(), notifications.as_ptr(), notifications.len()) };
    done(judged.status).map(|_| judged.is_awake)
}

/// What a frame says: the type of its message, its numbers, and its parts, which are texts and bytes, by their places. `palqytun.h` has the
/// meaning of each number and each place (`palqytun_frame_row`, `palqytun_frame_part`).
///
/// ```
/// use palqytun::{frames::{frame_of, Message}, MessageType};
/// let frame = frame_of(r#"Sleep wake_up_time=1000 result_completion_id=1 name="rest""#)?;
/// let slept = Message::read(&frame)?;
/// assert_eq!((slept.ty, slept.id, slept.number), (MessageType::SleepCommand, 1, 1000));
/// assert_eq!(slept.text(0)?, "rest");
/// # Ok::<(), palqytun::Error>(())
/// ```
#[derive(Clone, Copy, Debug, PartialEq, Eq)]
pub struct Message<'a> {
    frame: &'a [u8],
    /// The type.
    pub ty: MessageType,
    /// Of a notification and a signal that is sent: a `COMPLETION`, `SIGNAL` or `NAMED_SIGNAL` of [`sys`](crate::sys).
    pub kind: u32,
    /// What its result is: a `RESULT_` of [`sys`](crate::sys), or 0 for none.
    pub result: u32,
    /// The completion id, the number of a signal, or the code of an error.
    pub id: u32,
    /// The completion id of a call's invocation id, or the code of a failure.
    pub second: u32,
    /// A time or a delay in milliseconds.
    pub number: u64,
    /// How many headers, pairs of metadata, or keys there are.
    pub rows: usize,
}

impl<'a> Message<'a> {
    /// Reads a frame, which is lent to the message.
    pub fn read(frame: &'a [u8]) -> Result<Message<'a>> {
        let call = library()?.functions.frame_read;
        // SAFETY: the pointer is valid for the length.
        let row = unsafe { call(frame.as_ptr(), frame.len()) };
        done(row.status)?;
        let ty = MessageType::of_number(row.r#type).ok_or(crate::Error::Status(sys::Status::NotAFrame))?;
        let (kind, result, id, second, number, rows) = (row.kind, row.result, row.id, row.second, row.number, row.rows);
        Ok(Message { frame, ty, kind, result, id, second, number, rows })
    }

    /// The bytes at a place, if there are some.
    pub fn part(&self, at: usize) -> Result<Option<Vec<u8>>> {
        let (call, frame) = (library()?.functions.frame_part, self.frame);
        // SAFETY: each pointer is valid for its length.
        may_be_written(|room, len| unsafe { call(frame.as_ptr(), frame.len(), at, room, len) })
    }

    /// The text at a place, empty if there is none.
    pub fn text(&self, at: usize) -> Result<String> {
        Ok(self.part(at)?.map(utf8).unwrap_or_default())
    }

    /// The headers, or the metadata of a failure, of which the first key stands at this place.
    pub fn pairs(&self, first: usize) -> Result<Vec<(String, String)>> {
        (0..self.rows).map(|row| Ok((self.text(first + 2 * row)?, self.text(first + 2 * row + 1)?))).collect()
    }
}
