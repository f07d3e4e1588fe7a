//! In what a call that was refused isn't as the journal has it.

use crate::error::{Related, Result};
use crate::frames::frame_of;
use crate::library::library;
use crate::sys::{self, CommandType, Functions, Handle, Replied};
use crate::values::{content_type, Options};
use crate::vm::{may_be_written, utf8, Vm};
use std::fmt;

/// In what a call isn't as the recorded command of this index, the Input being 0.
///
/// ```
/// use palqytun::{CommandType, Difference};
/// let it = Difference {
///     index: 4,
///     field: "parameter".to_string(),
///     recorded: Some(r#""Ada""#.to_string()),
///     asked: Some(r#""Bob""#.to_string()),
///     recorded_type: Some(CommandType::Call),
///     asked_type: Some(CommandType::Call),
/// };
/// assert_eq!(it.to_string(), r#"command 4, Call, is recorded with parameter "Ada", and the call gives "Bob""#);
/// let own = it.in_words(|it| Some("ctx.service_call").filter(|_| it == CommandType::Call));
/// assert_eq!(own, r#"command 4, ctx.service_call, is recorded with parameter "Ada", and the call gives "Bob""#);
/// ```
#[derive(Clone, Debug, PartialEq, Eq)]
pub struct Difference {
    /// The index of the command.
    pub index: u32,
    /// The first field that differs, by its name on the line of a frame (`docs/FRAMES.md`), and `type` if the two are of different types.
    pub field: String,
    /// Its value in the journal, as such a line has it, up to 120 characters; the type, if the types differ. `None`: it is at its default, or there
    /// is no such command.
    pub recorded: Option<String>,
    /// The same by the call.
    pub asked: Option<String>,
    /// What is recorded; `None` if no command is.
    pub recorded_type: Option<CommandType>,
    /// What the call makes; `None` if it makes none, which is an await.
    pub asked_type: Option<CommandType>,
}

impl Difference {
    /// The same as a text, by an SDK's own names of commands. One without such a name has its own.
    pub fn in_words(&self, names: impl Fn(CommandType) -> Option<&'static str>) -> String {
        let named = |it: CommandType| names(it).map_or_else(|| format!("{:?}", it), str::to_string);
        let (index, made) = (self.index, self.asked_type.map(named).unwrap_or_default());
        let own = match self.recorded_type {
            Some(it) => named(it),
            None => return format!("no command is recorded at {}, and the call makes {}", index, made),
        };
        if self.asked_type.is_none() {
            return format!("command {} is recorded as {}, and the code awaits what hasn't come", index, own);
        }
        if self.field == "type" {
            return format!("command {} is recorded as {}, and the call makes {}", index, own, made);
        }
        let [recorded, asked] = [&self.recorded, &self.asked].map(|it| it.as_deref().unwrap_or("nothing"));
        let what = format!("{} {}, and the call gives {}", self.field, recorded, asked);
        format!("command {}, {}, is recorded with {}", index, own, what)
    }
}

impl fmt::Display for Difference {
    fn fmt(&self, f: &mut fmt::Formatter<'_>) -> fmt::Result {
        f.write_str(&self.in_words(|_| None))
    }
}

/// A typed call, on a VM of this handle. It may be made again, on another VM.
pub(crate) type Call<'a> = &'a dyn Fn(&Functions, Handle) -> Replied;

/// What a VM was fed before its handler began, to say in what a call isn't as recorded. It is kept until the journal is replayed.
#[derive(Default)]
pub(crate) struct Replayed {
    version: u32,
    fed: Option<Vec<u8>>,
    is_begun: bool,
    ignores_payloads: bool,
    /// The next call's payload isn't compared.
    pub(crate) is_unstable: bool,
}

impl Replayed {
    pub(crate) fn new(version: u32, options: &Options) -> Replayed {
        let is_replayed = options.journal_replay == sys::JournalReplay::Enabled;
        let ignores_payloads = options.non_determinism_checks == sys::NonDeterministicChecks::PayloadChecksDisabled;
        Replayed { version, fed: Some(Vec::new()).filter(|_| is_replayed), ignores_payloads, ..Replayed::default() }
    }

    /// Keeps bytes that were fed, if there is memory for them.
    pub(crate) fn feed(&mut self, data: &[u8]) {
        if self.is_begun {
            return;
        }
        if let Some(fed) = &mut self.fed {
            match fed.try_reserve(data.len()) {
                Ok(()) => fed.extend_from_slice(data),
                Err(_) => self.ends(),
            }
        }
    }

    /// The handler begins: all recorded commands were fed.
    pub(crate) fn begins(&mut self) {
        self.is_begun = true;
    }

    /// What comes from now on isn't replayed.
    pub(crate) fn ends(&mut self) {
        self.fed = None;
    }

    /// In what a call isn't as recorded, if the error of this text and related command is about that. `last` gives the index of the last command.
    pub(crate) fn difference(
        &self,
        (text, related): (&str, Option<&Related>),
        is_unstable: bool,
        call: Call<'_>,
        last: impl Fn() -> Option<u32>,
    ) -> Result<Option<Difference>> {
        let (fed, (index, message)) = match (&self.fed, place(text, related, last)) {
            (Some(fed), Some(place)) => (fed, place),
            _ => return Ok(None),
        };
        let functions = &library()?.functions;
        // SAFETY: each pointer is valid for its length; so it is below.
        let compared = unsafe { (functions.mismatch)(fed.as_ptr(), fed.len(), index, message) };
        if compared.status != sys::DONE {
            return Ok(None);
        }
        let recorded_type = CommandType::of_number(compared.recorded).filter(|_| compared.is_recorded);
        let asked_type = CommandType::of_number(compared.asked).filter(|_| compared.is_asked);
        let asked = if recorded_type == asked_type { self.again(call, compared.is_lazy)? } else { Vec::new() };
        let ignores = self.ignores_payloads || is_unstable;
        let part = |at| {
            let (fed, call) = ((fed.as_ptr(), fed.len()), functions.mismatch_part);
            let written = may_be_written(|room, len| unsafe {
                call(fed.0, fed.1, index, message, asked.as_ptr(), asked.len(), ignores, at, room, len)
            });
            written.map(|it| it.map(utf8))
        };
        let found = match part(0)? {
            Some(field) => Difference { index, field, recorded: part(1)?, asked: part(2)?, recorded_type, asked_type },
            None => return Ok(None),
        };
        Ok(Some(found))
    }

    /// What a call writes on a new VM, whose journal has an input alone, and whose state is empty. A read of the state is made in one of its two forms.
    fn again(&self, call: Call<'_>, is_lazy: bool) -> Result<Vec<u8>> {
        let options = Options { awaiting_on_policy: sys::AwaitingOnPolicy::DontSend, ..Options::default() };
        let mut vm = Vm::new(content_type(self.version)?.as_str(), &options)?;
        vm.notify_input(&frame_of(&format!(r#"Start id="-" debug_id="-" known_entries=1 partial={}"#, is_lazy))?)?;
        vm.notify_input(&frame_of("Input")?)?;
        vm.sys_input()?;
        vm.made_again(call);
        vm.take_output()
    }
}

/// The index of the recorded command, and the type of the call's message, 0 of an await, if the error is about these.
fn place(text: &str, related: Option<&Related>, last: impl Fn() -> Option<u32>) -> Option<(u32, u32)> {
    match text {
        "UncompletedDoProgressDuringReplay" => Some((last()?.checked_add(1)?, 0)),
        "UnavailableEntryError" | "CommandTypeMismatchError" | "CommandMismatchError" => {
            let it = related?;
            Some((it.index, it.message? as u32))
        }
        _ => None,
    }
}
