//! What a call fails by.

use crate::differing::Difference;
use crate::library::LoadError;
use crate::sys::{self, CommandType, ErrorBehavior, MessageType, Status};
use std::fmt;

/// What a call returns.
pub type Result<T, E = Error> = std::result::Result<T, E>;

/// What a call fails by.
#[derive(Clone, Debug, PartialEq, Eq)]
pub enum Error {
    /// The VM refused the call. It has failed, or is suspended or closed, and each later call returns the same.
    Vm(Box<VmError>),
    /// The call wasn't made, and this is why: no memory was found, an argument can't be read, an entry can't stand in a journal, or bytes
    /// aren't frames.
    Status(Status),
    /// The call wasn't made, since an argument is out of its bounds.
    Argument(ArgumentError),
    /// There is no shared object that can be used.
    Load(LoadError),
}

/// Which argument is out of its bounds, and what is allowed. [`Display`](fmt::Display) says both.
#[derive(Clone, Debug, PartialEq, Eq)]
pub struct ArgumentError {
    /// The name of the argument, and of the field in it.
    pub name: &'static str,
    why: String,
}

impl ArgumentError {
    /// Refuses a number that isn't from `least` to `most`.
    pub(crate) fn within(name: &'static str, value: u32, least: u32, most: u32) -> Result<()> {
        if (least..=most).contains(&value) {
            return Ok(());
        }
        let why = format!("must be from {} to {}, not {}", least, most, value);
        Err(Error::Argument(ArgumentError { name, why }))
    }
}

impl fmt::Display for ArgumentError {
    fn fmt(&self, f: &mut fmt::Formatter<'_>) -> fmt::Result {
        write!(f, "{} {}", self.name, self.why)
    }
}

impl std::error::Error for ArgumentError {}

/// An error that the VM returned. For one that was handed in, by [`Vm::notify_error`](crate::Vm::notify_error) or
/// [`Vm::propose_run_completion`](crate::Vm::propose_run_completion), each of [`Error::is_suspended`], [`Error::is_closed`],
/// [`Error::is_journal_mismatch`] and [`Error::is_no_memory`] is false, with any code.
#[derive(Clone, Debug, PartialEq, Eq)]
pub struct VmError {
    /// A `CODE_` of [`sys`](crate::sys), or that of the handler's own error.
    pub code: u16,
    /// What it says.
    pub message: String,
    /// The stack trace, if one was reported.
    pub stacktrace: String,
    /// The command that it relates to.
    pub related: Option<Related>,
    /// What is done after it.
    pub behavior: ErrorBehavior,
    /// The delay of the next try, in milliseconds.
    pub next_retry_delay_millis: Option<u64>,
    /// In what the call isn't as the journal has it, if the error is about that and the journal was fed to this VM.
    pub difference: Option<Difference>,
    /// The kind of the reply, by which a suspension isn't an error with the same code that was handed in.
    pub(crate) kind: u32,
    /// It was handed in, so its code says nothing of the VM.
    pub(crate) is_handed_in: bool,
}

/// A command that an error relates to.
#[derive(Clone, Debug, PartialEq, Eq)]
pub struct Related {
    /// Its index in the journal.
    pub index: u32,
    /// The type of its message.
    pub message: Option<MessageType>,
    /// Its name, which may be empty.
    pub name: String,
}

impl Error {
    /// The VM's error, if it is one.
    pub fn vm(&self) -> Option<&VmError> {
        match self {
            Error::Vm(it) => Some(it),
            _ => None,
        }
    }

    /// The code of the VM's error, if it is one.
    pub fn code(&self) -> Option<u16> {
        self.vm().map(|it| it.code)
    }

    fn has_kind(&self, kind: u32) -> bool {
        self.vm().map(|it| it.kind) == Some(kind)
    }

    /// Whether it is an error of the VM's own that has this code.
    fn has_code(&self, code: u32) -> bool {
        self.vm().map_or(false, |it| u32::from(it.code) == code && !it.is_handed_in)
    }

    /// Whether the invocation is suspended: what is awaited can't come in this attempt.
    pub fn is_suspended(&self) -> bool {
        self.has_kind(sys::SUSPENDED)
    }

    /// Whether the handler has ended, so no call comes after.
    pub fn is_closed(&self) -> bool {
        self.has_code(sys::CODE_CLOSED)
    }

    /// Whether the handler makes another call than the journal has recorded.
    pub fn is_journal_mismatch(&self) -> bool {
        self.has_code(sys::CODE_JOURNAL_MISMATCH)
    }

    /// Whether no memory was found: by the library, by a call of the VM that changes nothing and may be made again, or by a VM that has failed
    /// by that. It is false for an error that was handed in, with any code.
    pub fn is_no_memory(&self) -> bool {
        self.has_kind(sys::OUT_OF_MEMORY) || *self == Error::Status(Status::NoMemory)
    }

    /// The error of a status that isn't done. A number that no status has can't come from a library of this interface.
    pub(crate) fn of_status(status: u32) -> Error {
        Error::Status(Status::of_number(status).unwrap_or(Status::BadNumber))
    }
}

/// The name of a code of the VM's own errors.
fn name_of(code: u16) -> Option<&'static str> {
    Some(match u32::from(code) {
        sys::CODE_BAD_REQUEST => "BadRequest",
        sys::CODE_UNSUPPORTED_MEDIA_TYPE => "UnsupportedMediaType",
        sys::CODE_INTERNAL => "Internal",
        sys::CODE_JOURNAL_MISMATCH => "JournalMismatch",
        sys::CODE_PROTOCOL_VIOLATION => "ProtocolViolation",
        sys::CODE_UNSUPPORTED_FEATURE => "UnsupportedFeature",
        sys::CODE_CLOSED => "Closed",
        sys::CODE_SUSPENDED => "Suspended",
        _ => return None,
    })
}

impl VmError {
    /// The text of the error by an SDK's own names of commands. One without such a name has its own.
    pub fn in_words(&self, names: impl Fn(CommandType) -> Option<&'static str>) -> String {
        match &self.difference {
            Some(it) => format!("{}: {}", self.head(), it.in_words(names)),
            None => self.to_string(),
        }
    }

    /// The text without the command.
    fn head(&self) -> String {
        let mut text = String::new();
        let _ = self.write_head(&mut text);
        text
    }

    fn write_head(&self, f: &mut dyn fmt::Write) -> fmt::Result {
        write!(f, "{} ", self.code)?;
        let is_said = |name: &&str| name.eq_ignore_ascii_case(&self.message.replace('_', ""));
        if let Some(name) = name_of(self.code).filter(|it| !self.is_handed_in && !is_said(it)) {
            write!(f, "{}: ", name)?;
        }
        let has_no_memory = u32::from(self.code) == sys::CODE_INTERNAL && self.message.is_empty() && !self.is_handed_in;
        f.write_str(if has_no_memory { Status::NoMemory.text() } else { &self.message })?;
        if u32::from(self.code) == sys::CODE_UNSUPPORTED_MEDIA_TYPE && !self.is_handed_in {
            let (least, most) = (sys::MINIMUM_VERSION, sys::MAXIMUM_VERSION);
            let form = "the content type must be application/vnd.restate.invocation.vN";
            write!(f, " ({} with N from {} to {})", form, least, most)?;
        }
        Ok(())
    }
}

/// The code, its name if the error is the VM's own, what it says, what is allowed, and in what the call isn't as recorded or the command that it relates to.
impl fmt::Display for VmError {
    fn fmt(&self, f: &mut fmt::Formatter<'_>) -> fmt::Result {
        self.write_head(f)?;
        match (&self.difference, &self.related) {
            (Some(it), _) => write!(f, ": {}", it),
            (None, Some(it)) => write!(f, " ({})", it),
            (None, None) => Ok(()),
        }
    }
}

impl fmt::Display for Related {
    fn fmt(&self, f: &mut fmt::Formatter<'_>) -> fmt::Result {
        match self.message {
            Some(message) => write!(f, "command {}: {:?} {:?}", self.index, message, self.name),
            None => write!(f, "command {}: {:?}", self.index, self.name),
        }
    }
}

impl fmt::Display for Error {
    fn fmt(&self, f: &mut fmt::Formatter<'_>) -> fmt::Result {
        match self {
            Error::Vm(it) => it.fmt(f),
            Error::Status(it) => write!(f, "{:?}: {}", it, it.text()),
            Error::Argument(it) => it.fmt(f),
            Error::Load(it) => it.fmt(f),
        }
    }
}

impl std::error::Error for VmError {}
impl std::error::Error for Error {}

impl From<LoadError> for Error {
    fn from(it: LoadError) -> Error {
        Error::Load(it)
    }
}
