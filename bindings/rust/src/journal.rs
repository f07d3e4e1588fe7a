//! A stored journal, as its only writer knows it, without its entries.

use crate::error::{ArgumentError, Error, Result};
use crate::frames::Message;
use crate::library::{library, Library};
use crate::sys::{self, Handle, MessageType};
use crate::vm::{done, written};
use std::cell::Cell;
use std::marker::PhantomData;
use std::ptr;

/// An entry to be appended.
#[derive(Clone, Debug, PartialEq, Eq)]
pub struct Row {
    /// The type of its message.
    pub message: MessageType,
    /// The completion id that it completes.
    pub completes: Option<u32>,
    /// Its bytes.
    pub frame: Vec<u8>,
}

impl Row {
    /// What the row asks a runtime for, as a call, a sleep or a send: its message's numbers and parts.
    ///
    /// # Errors
    ///
    /// [`Status::NotAFrame`](crate::Status::NotAFrame) of a frame that isn't one.
    pub fn effect(&self) -> Result<Message<'_>> {
        Message::read(&self.frame)
    }
}

/// What is stored of an attempt's output.
#[derive(Clone, Debug, PartialEq, Eq)]
pub struct Stored {
    /// The rows to append, in order.
    pub rows: Vec<Row>,
    /// What the attempt is fed after the commit.
    pub feed: Vec<u8>,
}

/// A stored journal. Dropping it frees its memory. It may go from thread to thread, and isn't shared.
///
/// # Errors
///
/// What may not be appended is an [`Error::Status`] that says why. What came since the last [`keep`](Journal::keep) is then taken back.
///
/// ```
/// use palqytun::{frames, Journal, Status, Error};
/// let input = frames::frame_of(r#"Input value="Till""#)?;
/// let sleep = frames::frame_of("Sleep wake_up_time=1000 result_completion_id=1")?;
/// let mut journal = Journal::of([&input, &sleep])?;
/// assert_eq!(journal.entries()?, 2);
/// let slept = frames::frame_of("Notification id=completion(1) result=void")?;
/// assert_eq!(journal.arrive(&slept)?.completes, Some(1));
/// journal.keep()?;
/// assert_eq!(journal.arrive(&slept), Err(Error::Status(Status::SecondCompletion)));
/// # Ok::<(), Error>(())
/// ```
#[derive(Debug)]
pub struct Journal {
    library: &'static Library,
    handle: Handle,
    _one_thread: PhantomData<Cell<()>>,
}

// SAFETY: a journal may be used from any thread, by one call at a time, which `&mut self` makes sure of.
unsafe impl Send for Journal {}

impl Drop for Journal {
    fn drop(&mut self) {
        // SAFETY: the handle may be any; it is that of this journal.
        unsafe { (self.library.functions.journal_close)(self.handle) };
    }
}

impl Journal {
    /// A journal without entries.
    pub fn new() -> Result<Journal> {
        let library = library()?;
        let mut handle: Handle = ptr::null_mut();
        // SAFETY: the pointer is valid.
        done(unsafe { (library.functions.journal_open)(&mut handle) })?;
        Ok(Journal { library, handle, _one_thread: PhantomData })
    }

    /// A journal of these entries, each one whole frame, the first one an Input; they are kept.
    pub fn of<T: AsRef<[u8]>>(entries: impl IntoIterator<Item = T>) -> Result<Journal> {
        let mut journal = Journal::new()?;
        let mut is_empty = true;
        for entry in entries {
            journal.entry(entry.as_ref())?;
            is_empty = false;
        }
        if !is_empty {
            journal.keep()?;
        }
        Ok(journal)
    }

    /// How many entries it has, those that aren't committed too.
    pub fn entries(&mut self) -> Result<usize> {
        // SAFETY: the handle may be any.
        let told = unsafe { (self.library.functions.journal_entries)(self.handle) };
        done(told.status).map(|_| told.len)
    }

    /// The next entry of a journal that is loaded.
    pub fn entry(&mut self, frame: &[u8]) -> Result<Row> {
        // SAFETY: the pointer is valid for the length.
        let row = unsafe { (self.library.functions.journal_entry)(self.handle, frame.as_ptr(), frame.len()) };
        row_of(&row, || Ok(frame.to_vec()))
    }

    /// The entry that a notification is. The attempt is fed its bytes after the commit.
    pub fn arrive(&mut self, notification: &[u8]) -> Result<Row> {
        let (at, len) = (notification.as_ptr(), notification.len());
        // SAFETY: the pointer is valid for the length.
        let row = unsafe { (self.library.functions.journal_arrive)(self.handle, at, len) };
        row_of(&row, || Ok(notification.to_vec()))
    }

    /// What is stored of what an attempt of this version wrote since the last store, as [`Vm::take_output`](crate::Vm::take_output) gave it:
    /// its commands, and the completions that its proposals are.
    ///
    /// # Errors
    ///
    /// [`Error::Argument`] if no VM has this version.
    pub fn store(&mut self, version: u32, output: &[u8]) -> Result<Stored> {
        ArgumentError::within("version", version, sys::MINIMUM_VERSION, sys::MAXIMUM_VERSION)?;
        let (at, len) = (output.as_ptr(), output.len());
        // SAFETY: the pointer is valid for the length.
        let stored = unsafe { (self.library.functions.journal_store)(self.handle, version, at, len) };
        done(stored.status)?;
        let rows = (0..stored.rows).map(|at| self.row(at)).collect::<Result<Vec<Row>>>()?;
        let (answer, handle) = (self.library.functions.journal_answer, self.handle);
        // SAFETY: the room is valid for its length.
        Ok(Stored { rows, feed: written(|at, len| unsafe { answer(handle, at, len) })? })
    }

    fn row(&self, at: usize) -> Result<Row> {
        let (functions, handle) = (&self.library.functions, self.handle);
        // SAFETY: the handle and the place may be any.
        let row = unsafe { (functions.journal_row)(handle, at) };
        // SAFETY: the room is valid for its length.
        row_of(&row, || written(|room, len| unsafe { (functions.journal_frame)(handle, at, room, len) }))
    }

    /// What came since the last of these calls is committed. After [`Status::NoMemory`](crate::Status::NoMemory) the journal has to be
    /// loaded again, into another.
    pub fn keep(&mut self) -> Result<()> {
        // SAFETY: the handle may be any.
        done(unsafe { (self.library.functions.journal_keep)(self.handle) })
    }

    /// What came since the last commit isn't committed: the journal is again as it was then.
    pub fn undo(&mut self) -> Result<()> {
        // SAFETY: the handle may be any.
        done(unsafe { (self.library.functions.journal_undo)(self.handle) })
    }
}

fn row_of(row: &sys::Row, frame: impl FnOnce() -> Result<Vec<u8>>) -> Result<Row> {
    done(row.status)?;
    let message = MessageType::of_number(row.r#type).ok_or(Error::Status(sys::Status::NotAFrame))?;
    Ok(Row { message, completes: Some(row.completes).filter(|_| row.is_completion), frame: frame()? })
}
