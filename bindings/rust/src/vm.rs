//! The invocation VM: a method for each of its calls, under the call's own name.

use crate::differing::{Call, Difference, Replayed};
use crate::error::{ArgumentError, Error, Related, Result, VmError};
use crate::future::UnresolvedFuture;
use crate::lent::{self, bytes, optional, text};
use crate::library::{library, Library};
use crate::sys::{self, ErrorBehavior, Handle, MessageType, Replied, State, Told};
use crate::values::{
    Awaited, Awakeable, CallHandles, DeadlineHandles, Failure, HandlerError, Input, InvocationTarget, NonEmptyValue,
    NotificationHandle, Options, PayloadOptions, RelatedCommand, ResponseHead, RetryPolicy, RunHandle, RunResult,
    Target, Value,
};
use std::cell::Cell;
use std::marker::PhantomData;
use std::{fmt, mem, ptr, slice};

/// One VM, for one attempt of an invocation. Dropping it frees its memory.
///
/// It may go from thread to thread, and has one call at a time, so it isn't shared:
///
/// ```compile_fail
/// fn shared<T: Sync>() {}
/// shared::<palqytun::Vm>();
/// ```
///
/// It is closed once:
///
/// ```compile_fail
/// let vm = palqytun::Vm::new("application/vnd.restate.invocation.v7", &Default::default()).unwrap();
/// drop(vm);
/// drop(vm);
/// ```
///
/// Times are whole milliseconds since the Unix epoch. A `name` may be empty: then the command has none.
///
/// # Errors
///
/// Each method fails by [`Error::Vm`] if the VM refuses the call, and by [`Error::Status`] or [`Error::Argument`] if the call can't be made; then
/// nothing was done.
pub struct Vm {
    library: &'static Library,
    handle: Handle,
    version: u32,
    /// It has failed by an error that was handed in, which each later call returns.
    failed_by_handed_in: bool,
    /// An error has failed it, which may say in what a call isn't as recorded.
    is_refused: bool,
    difference: Option<Difference>,
    replayed: Replayed,
    /// A VM isn't `Sync`.
    _one_thread: PhantomData<Cell<()>>,
}

// SAFETY: a VM may be used from any thread, by one call at a time, which `&mut self` makes sure of.
unsafe impl Send for Vm {}

impl Drop for Vm {
    fn drop(&mut self) {
        // SAFETY: the handle may be any; it is that of this VM.
        unsafe { (self.library.functions.close)(self.handle) };
    }
}

impl Vm {
    /// A VM for the version that the content type names. `None` stands for an absent header.
    ///
    /// # Errors
    ///
    /// 415 if the content type names no version that is supported; [`Error::Load`] if there is no library.
    ///
    /// ```
    /// use palqytun::{Options, Vm};
    /// let vm = Vm::new("application/vnd.restate.invocation.v7", &Options::default())?;
    /// assert_eq!(vm.version(), 7);
    /// assert_eq!(Vm::new("text/plain", &Options::default()).unwrap_err().code(), Some(415));
    /// # Ok::<(), palqytun::Error>(())
    /// ```
    pub fn new<'a>(content_type: impl Into<Option<&'a str>>, options: &Options) -> Result<Vm> {
        let library = library()?;
        let mut handle: Handle = ptr::null_mut();
        // SAFETY: the pointer is valid, and what is written there is a handle, or null.
        let status = unsafe { (library.functions.open)(&mut handle) };
        if status != sys::DONE {
            return Err(Error::of_status(status));
        }
        let mut vm = Vm {
            library,
            handle,
            version: 0,
            failed_by_handed_in: false,
            is_refused: false,
            difference: None,
            replayed: Replayed::default(),
            _one_thread: PhantomData,
        };
        let (asked, lent) = (optional(content_type.into()), lent::options(options));
        vm.version = vm.made(|it, vm| unsafe { (it.make)(vm, asked, &lent) })?.first;
        vm.replayed = Replayed::new(vm.version, options);
        Ok(vm)
    }

    /// The version of its messages.
    pub fn version(&self) -> u32 {
        self.version
    }

    // ---- The attempt

    /// The head of the response: status 200, and the content type of the version.
    pub fn get_response_head(&mut self) -> Result<ResponseHead> {
        let replied = self.made(|it, vm| unsafe { (it.head)(vm) })?;
        Ok(ResponseHead { status_code: replied.number as u16, headers: self.pairs(0, replied.rows)? })
    }

    /// The next bytes of the attempt, cut anywhere. What they spell may fail the VM, which the next call returns.
    pub fn notify_input(&mut self, data: &[u8]) -> Result<()> {
        // SAFETY: the pointer is valid for the length.
        done(unsafe { (self.library.functions.feed)(self.handle, data.as_ptr(), data.len()) })?;
        self.replayed.feed(data);
        Ok(())
    }

    /// No more bytes come.
    pub fn notify_input_closed(&mut self) -> Result<()> {
        self.nothing(|it, vm| unsafe { (it.close_input)(vm) })
    }

    /// The handler failed by an error of its own, which fails the VM; one that has failed keeps its first error. Each later call returns it, and
    /// it is none of the VM's own errors, with any code: [`Error::is_closed`] and the others are false.
    pub fn notify_error(&mut self, error: &HandlerError<'_>, related: Option<RelatedCommand<'_>>) -> Result<()> {
        let (lent, command) = (lent::error(error), lent::command(&related));
        self.hand_in(error, |it, vm| unsafe { (it.report_error)(vm, &lent, &command) })
    }

    /// Takes all bytes that wait to be sent: whole frames.
    pub fn take_output(&mut self) -> Result<Vec<u8>> {
        let (take, handle) = (self.library.functions.take_output, self.handle);
        // SAFETY: the room is valid for its length.
        let output = written(|at, len| unsafe { take(handle, at, len) })?;
        if !output.is_empty() {
            self.replayed.ends();
        }
        Ok(output)
    }

    /// Takes all bytes that wait to be sent, as [`Vm::take_output`] does, and lends them where they lie: none is copied. They are read before the
    /// next call of this VM:
    ///
    /// ```compile_fail
    /// let mut vm = palqytun::Vm::new("application/vnd.restate.invocation.v7", &Default::default()).unwrap();
    /// let output = vm.lend_output().unwrap();
    /// vm.notify_input(&[]).unwrap();
    /// assert!(output.is_empty());
    /// ```
    pub fn lend_output(&mut self) -> Result<&[u8]> {
        let mut lent = sys::Bytes { at: ptr::null(), len: 0 };
        // SAFETY: the handle is that of this VM, and there is room for what is written.
        done(unsafe { (self.library.functions.lend_output)(self.handle, &mut lent) })?;
        if lent.len == 0 {
            return Ok(&[]);
        }
        self.replayed.ends();
        // SAFETY: the bytes stay until the next `lend_output` or the drop, and `self` is borrowed for as long as they are.
        Ok(unsafe { slice::from_raw_parts(lent.at, lent.len) })
    }

    /// Whether the handler may begin: all known entries were fed.
    pub fn is_ready_to_execute(&mut self) -> Result<bool> {
        self.flag(|it, vm| unsafe { (it.is_ready)(vm) })
    }

    /// The state of the VM.
    pub fn state(&mut self) -> Result<State> {
        let replied = self.made(|it, vm| unsafe { (it.state)(vm) })?;
        Ok(State::of_number(replied.first).unwrap_or(State::Closed))
    }

    /// The index of the last command; `None` before any.
    pub fn last_command_index(&mut self) -> Result<Option<u64>> {
        let replied = self.made(|it, vm| unsafe { (it.last_command_index)(vm) })?;
        Ok(Some(replied.number).filter(|_| replied.kind == sys::INDEX))
    }

    // ---- Awaits

    /// Whether a future is awake, and if it isn't, what to do next.
    pub fn do_await(&mut self, future: impl Into<UnresolvedFuture>) -> Result<Awaited> {
        let nodes = future.into().nodes;
        let replied = match nodes[..] {
            [only] if only.kind == sys::SINGLE => self.made(|it, vm| unsafe { (it.r#await)(vm, only.number) })?,
            _ => self.made(|it, vm| unsafe { (it.await_tree)(vm, nodes.as_ptr(), nodes.len()) })?,
        };
        if replied.kind != sys::AWAKE && replied.kind != sys::CANCELLED {
            self.replayed.ends();
        }
        Ok(match replied.kind {
            sys::WAITING => Awaited::WaitingExternalProgress {
                waiting_input: replied.first == 1,
                waiting_run_proposal: replied.second == 1,
            },
            sys::EXECUTE_RUN => Awaited::ExecuteRun(replied.first.into()),
            sys::EPHEMERAL => Awaited::EphemeralNotificationReady(replied.first),
            sys::CANCELLED => Awaited::CancelSignalReceived,
            _ => Awaited::AnyCompleted,
        })
    }

    /// Whether a take of the handle would return a value.
    pub fn is_completed(&mut self, handle: NotificationHandle) -> Result<bool> {
        self.flag(|it, vm| unsafe { (it.is_completed)(vm, handle.into()) })
    }

    /// Takes the result of a handle; `None` if it has none.
    pub fn take_notification(&mut self, handle: NotificationHandle) -> Result<Option<Value>> {
        let replied = self.made(|it, vm| unsafe { (it.take)(vm, handle.into()) })?;
        self.taken(&replied)
    }

    /// Takes the value of an ephemeral read, [`Value::Void`] if the key has none; `None` if it isn't there.
    pub fn take_ephemeral_notification(&mut self, id: u32) -> Result<Option<Value>> {
        let replied = self.made(|it, vm| unsafe { (it.take_ephemeral)(vm, id) })?;
        self.taken(&replied)
    }

    // ---- The handler's calls

    /// What the handler was called with; its first call.
    pub fn sys_input(&mut self) -> Result<Input> {
        let replied = self.made(|it, vm| unsafe { (it.input)(vm) })?;
        self.replayed.begins();
        Ok(Input {
            input: self.part(0)?.unwrap_or_default(),
            invocation_id: self.text(1)?,
            key: self.text(2)?,
            scope: self.may_text(3)?,
            limit_key: self.may_text(4)?,
            idempotency_key: self.may_text(5)?,
            headers: self.pairs(6, replied.rows)?,
            random_seed: replied.number,
        })
    }

    /// A sleep until a time; its result is [`Value::Void`].
    pub fn sys_sleep(&mut self, name: &str, wake_up_millis: u64) -> Result<NotificationHandle> {
        self.handle_of(|it, vm| unsafe { (it.sleep)(vm, text(name), wake_up_millis) })
    }

    /// Reads the value of a state key: bytes, or [`Value::Void`].
    pub fn sys_state_get(&mut self, key: &str, name: &str) -> Result<NotificationHandle> {
        self.handle_of(|it, vm| unsafe { (it.state_get)(vm, text(key), text(name)) })
    }

    /// Reads the keys that have a value.
    pub fn sys_state_get_keys(&mut self, name: &str) -> Result<NotificationHandle> {
        self.handle_of(|it, vm| unsafe { (it.state_get_keys)(vm, text(name)) })
    }

    /// Reads the value of a state key and leaves nothing of it in the journal; returns the read's id. It needs version 8, and is refused in
    /// replay.
    pub fn ephemeral_state_get(&mut self, key: &str) -> Result<u32> {
        Ok(self.made(|it, vm| unsafe { (it.ephemeral_state_get)(vm, text(key)) })?.first)
    }

    /// Gives a state key a value.
    pub fn sys_state_set(&mut self, key: &str, value: &[u8], name: &str, options: PayloadOptions) -> Result<()> {
        let unstable = self.payload(options);
        self.nothing(|it, vm| unsafe { (it.state_set)(vm, text(key), bytes(value), text(name), unstable) })
    }

    /// Takes a state key's value away.
    pub fn sys_state_clear(&mut self, key: &str, name: &str) -> Result<()> {
        self.nothing(|it, vm| unsafe { (it.state_clear)(vm, text(key), text(name)) })
    }

    /// Takes each state key's value away.
    pub fn sys_state_clear_all(&mut self, name: &str) -> Result<()> {
        self.nothing(|it, vm| unsafe { (it.state_clear_all)(vm, text(name)) })
    }

    /// Calls another handler.
    pub fn sys_call(
        &mut self,
        target: &Target<'_>,
        input: &[u8],
        name: &str,
        options: PayloadOptions,
    ) -> Result<CallHandles> {
        let headers = lent::pairs(target.headers);
        let (target, unstable) = (lent::target(target, &headers), self.payload(options));
        let replied = self.made(|it, vm| unsafe { (it.call)(vm, &target, bytes(input), text(name), unstable) })?;
        Ok(CallHandles { invocation_id: replied.first.into(), result: replied.second.into() })
    }

    /// Calls another handler and sleeps until a time, in one call. Await the first that comes of the last two handles.
    pub fn sys_call_with_deadline(
        &mut self,
        target: &Target<'_>,
        input: &[u8],
        deadline_millis: u64,
        name: &str,
        options: PayloadOptions,
    ) -> Result<DeadlineHandles> {
        let headers = lent::pairs(target.headers);
        let (target, unstable) = (lent::target(target, &headers), self.payload(options));
        let replied = self.made(|it, vm| unsafe {
            (it.call_with_deadline)(vm, &target, bytes(input), deadline_millis, text(name), unstable)
        })?;
        let [invocation_id, result, deadline] = [replied.first, replied.second, replied.third].map(Into::into);
        Ok(DeadlineHandles { invocation_id, result, deadline })
    }

    /// Calls another handler at once or at a time, and nobody waits for the result; returns the handle of the invocation's id.
    pub fn sys_send(
        &mut self,
        target: &Target<'_>,
        input: &[u8],
        at_millis: Option<u64>,
        name: &str,
        options: PayloadOptions,
    ) -> Result<NotificationHandle> {
        let (headers, at) = (lent::pairs(target.headers), at_millis.unwrap_or(0));
        let (target, unstable) = (lent::target(target, &headers), self.payload(options));
        self.handle_of(|it, vm| unsafe { (it.send)(vm, &target, bytes(input), at, text(name), unstable) })
    }

    /// Sends the cancel signal to another invocation.
    pub fn sys_cancel_invocation(&mut self, invocation_id: &str) -> Result<()> {
        self.nothing(|it, vm| unsafe { (it.cancel_invocation)(vm, text(invocation_id)) })
    }

    /// Attaches to another invocation; returns the handle of its result.
    pub fn sys_attach_invocation(&mut self, target: &InvocationTarget<'_>) -> Result<NotificationHandle> {
        let invocation = lent::invocation(target);
        self.handle_of(|it, vm| unsafe { (it.attach)(vm, &invocation) })
    }

    /// Looks whether another invocation has an output; returns the handle of it, or of [`Value::Void`].
    pub fn sys_get_invocation_output(&mut self, target: &InvocationTarget<'_>) -> Result<NotificationHandle> {
        let invocation = lent::invocation(target);
        self.handle_of(|it, vm| unsafe { (it.get_output)(vm, &invocation) })
    }

    /// Makes an awakeable.
    pub fn sys_awakeable(&mut self) -> Result<Awakeable> {
        let replied = self.made(|it, vm| unsafe { (it.awakeable)(vm) })?;
        Ok(Awakeable { id: self.text(0)?, handle: replied.first.into() })
    }

    /// Gives the awakeable of this id its result.
    pub fn sys_complete_awakeable(
        &mut self,
        id: &str,
        value: &NonEmptyValue<'_>,
        options: PayloadOptions,
    ) -> Result<()> {
        let metadata = lent::metadata(value);
        let (value, unstable) = (lent::value(value, &metadata), self.payload(options));
        self.nothing(|it, vm| unsafe { (it.complete_awakeable)(vm, text(id), &value, unstable) })
    }

    /// A handle for the signal of this name.
    pub fn create_signal_handle(&mut self, name: &str) -> Result<NotificationHandle> {
        self.handle_of(|it, vm| unsafe { (it.signal)(vm, text(name)) })
    }

    /// Sends a named signal to another invocation.
    pub fn sys_complete_signal(&mut self, invocation_id: &str, name: &str, value: &NonEmptyValue<'_>) -> Result<()> {
        let metadata = lent::metadata(value);
        let value = lent::value(value, &metadata);
        self.nothing(|it, vm| unsafe { (it.complete_signal)(vm, text(invocation_id), text(name), &value) })
    }

    /// Awaits a promise of the workflow; returns the handle of its value.
    pub fn sys_get_promise(&mut self, key: &str) -> Result<NotificationHandle> {
        self.handle_of(|it, vm| unsafe { (it.get_promise)(vm, text(key)) })
    }

    /// Looks whether a promise of the workflow is completed; returns the handle of its value, or of [`Value::Void`].
    pub fn sys_peek_promise(&mut self, key: &str) -> Result<NotificationHandle> {
        self.handle_of(|it, vm| unsafe { (it.peek_promise)(vm, text(key)) })
    }

    /// Completes a promise of the workflow; returns the handle of [`Value::Void`], or of a failure if it had been completed before.
    pub fn sys_complete_promise(
        &mut self,
        key: &str,
        value: &NonEmptyValue<'_>,
        options: PayloadOptions,
    ) -> Result<NotificationHandle> {
        let metadata = lent::metadata(value);
        let (value, unstable) = (lent::value(value, &metadata), self.payload(options));
        self.handle_of(|it, vm| unsafe { (it.complete_promise)(vm, text(key), &value, unstable) })
    }

    /// Calls a run, an effect whose result is recorded; an await says when to execute it.
    pub fn sys_run(&mut self, name: &str) -> Result<RunHandle> {
        let replied = self.made(|it, vm| unsafe { (it.run)(vm, text(name)) })?;
        Ok(RunHandle { handle: replied.first.into(), replayed: replied.second == 1 })
    }

    /// Gives the result of a run that an await asked to execute.
    ///
    /// # Errors
    ///
    /// [`Error::Argument`] if the policy has a factor whose denominator is 0.
    pub fn propose_run_completion(
        &mut self,
        handle: NotificationHandle,
        result: &RunResult<'_>,
        policy: &RetryPolicy,
    ) -> Result<()> {
        if let RetryPolicy::Exponential { factor: (_, denominator), .. } = policy {
            ArgumentError::within("the denominator of factor", *denominator, 1, u32::MAX)?;
        }
        let policy = lent::policy(policy);
        match result {
            RunResult::Terminal(value) => {
                let metadata = lent::metadata(value);
                let value = lent::value(value, &metadata);
                self.nothing(|it, vm| unsafe { (it.propose)(vm, handle.into(), &value, &policy) })
            }
            RunResult::RetryableFailure { attempt_duration_millis: took, error } => {
                let lent = lent::error(error);
                self.hand_in(error, |it, vm| unsafe {
                    (it.propose_retryable)(vm, handle.into(), *took, &lent, &policy)
                })
            }
        }
    }

    /// The handler's result.
    pub fn sys_write_output(&mut self, value: &NonEmptyValue<'_>, options: PayloadOptions) -> Result<()> {
        let metadata = lent::metadata(value);
        let (value, unstable) = (lent::value(value, &metadata), self.payload(options));
        self.nothing(|it, vm| unsafe { (it.write_output)(vm, &value, unstable) })
    }

    /// The handler ends; its last call.
    pub fn sys_end(&mut self) -> Result<()> {
        self.nothing(|it, vm| unsafe { (it.end)(vm) })
    }

    // ---- Replies

    /// Whether the payload of the next call is unstable.
    fn payload(&mut self, options: PayloadOptions) -> bool {
        self.replayed.is_unstable = options.unstable_serialization;
        options.unstable_serialization
    }

    /// Makes a typed call. What `call` lends is valid until it returns; it may be made again on another VM, to say in what it isn't as recorded.
    fn made(&mut self, call: impl Fn(&sys::Functions, Handle) -> Replied) -> Result<Replied> {
        let replied = call(&self.library.functions, self.handle);
        self.outcome(replied, &call)
    }

    /// Makes a call of another VM on this one, which is a new one, for what it writes.
    pub(crate) fn made_again(&mut self, call: Call<'_>) {
        call(&self.library.functions, self.handle);
    }

    /// What a typed call returns that replied this.
    fn outcome(&mut self, replied: Replied, call: Call<'_>) -> Result<Replied> {
        let is_unstable = mem::take(&mut self.replayed.is_unstable);
        match replied.status {
            sys::DONE => Ok(replied),
            sys::REFUSED => Err(Error::Vm(Box::new(self.refusal(&replied, is_unstable, call)?))),
            status => Err(Error::of_status(status)),
        }
    }

    fn nothing(&mut self, call: impl Fn(&sys::Functions, Handle) -> Replied) -> Result<()> {
        self.made(call).map(|_| ())
    }

    /// Makes a call that hands in this error. If the VM fails by it, each later call is refused by it; a VM that had failed keeps its first error.
    fn hand_in(&mut self, given: &HandlerError<'_>, call: impl Fn(&sys::Functions, Handle) -> Replied) -> Result<()> {
        if is_failure(&self.ready()) {
            return self.nothing(call);
        }
        let replied = call(&self.library.functions, self.handle);
        self.failed_by_handed_in = self.has_failed_by(given, &replied)?;
        self.is_refused |= self.failed_by_handed_in;
        self.outcome(replied, &call).map(|_| ())
    }

    /// Whether the VM has failed by this error, after a call with this reply that handed it in. It may also have failed by one of its own, which
    /// says something else: the version has no such behavior, nobody waits for the run, or no memory was found.
    fn has_failed_by(&self, given: &HandlerError<'_>, replied: &Replied) -> Result<bool> {
        let ready;
        let after = if replied.status == sys::REFUSED {
            replied
        } else {
            ready = self.ready();
            &ready
        };
        Ok(is_failure(after) && after.number == u64::from(given.code) && self.text(0)? == given.message)
    }

    fn ready(&self) -> Replied {
        // SAFETY: the handle is that of this VM.
        unsafe { (self.library.functions.is_ready)(self.handle) }
    }

    fn flag(&mut self, call: impl Fn(&sys::Functions, Handle) -> Replied) -> Result<bool> {
        Ok(self.made(call)?.first == 1)
    }

    fn handle_of(&mut self, call: impl Fn(&sys::Functions, Handle) -> Replied) -> Result<NotificationHandle> {
        Ok(self.made(call)?.first.into())
    }

    fn refusal(&mut self, replied: &Replied, is_unstable: bool, call: Call<'_>) -> Result<VmError> {
        let related = if replied.first == 1 {
            let message = MessageType::of_number(replied.third);
            Some(Related { index: replied.second, message, name: self.text(2)? })
        } else {
            None
        };
        let (message, stacktrace) = (self.text(0)?, self.text(1)?);
        let (code, is_handed_in) = (replied.number as u16, self.failed_by_handed_in && replied.kind == sys::ERROR);
        // SAFETY: the handle is that of this VM.
        let retry = unsafe { (self.library.functions.next_retry)(self.handle) };
        let behavior = ErrorBehavior::of_number(retry.behavior).unwrap_or(ErrorBehavior::Retry);
        let next_retry_delay_millis = Some(retry.delay_millis).filter(|_| retry.has_delay);
        let difference = if is_failure(replied) {
            self.differs(&message, related.as_ref(), is_unstable, call);
            self.difference.clone()
        } else {
            None
        };
        Ok(VmError {
            code,
            message,
            stacktrace,
            related,
            behavior,
            next_retry_delay_millis,
            difference,
            kind: replied.kind,
            is_handed_in,
        })
    }

    /// Notes in what the call isn't as recorded that has failed the VM: it is this one, if none had failed it, and the error has this text and related
    /// command. If that can't be found, the error says less.
    fn differs(&mut self, text: &str, related: Option<&Related>, is_unstable: bool, call: Call<'_>) {
        if mem::replace(&mut self.is_refused, true) {
            return;
        }
        let (last_command_index, handle) = (self.library.functions.last_command_index, self.handle);
        let last = || {
            // SAFETY: the handle is that of this VM.
            let replied = unsafe { last_command_index(handle) };
            Some(replied.number as u32).filter(|_| replied.kind == sys::INDEX)
        };
        self.difference = self.replayed.difference((text, related), is_unstable, call, last).unwrap_or_default();
    }

    fn taken(&self, replied: &Replied) -> Result<Option<Value>> {
        Ok(Some(match replied.kind {
            sys::VOID => Value::Void,
            sys::VALUE => Value::Success(self.part(0)?.unwrap_or_default()),
            sys::FAILURE => Value::Failure(Failure {
                code: replied.number as u16,
                message: self.text(0)?,
                metadata: self.pairs(1, replied.rows)?,
            }),
            sys::KEYS => Value::StateKeys((0..replied.rows).map(|at| self.text(at)).collect::<Result<_>>()?),
            sys::INVOCATION_ID => Value::InvocationId(self.text(0)?),
            _ => return Ok(None),
        }))
    }

    /// A part of the last reply, if there is one.
    fn part(&self, at: usize) -> Result<Option<Vec<u8>>> {
        let (part, handle) = (self.library.functions.part, self.handle);
        // SAFETY: the room is valid for its length.
        may_be_written(|room, len| unsafe { part(handle, at, room, len) })
    }

    fn may_text(&self, at: usize) -> Result<Option<String>> {
        Ok(self.part(at)?.map(utf8))
    }

    fn text(&self, at: usize) -> Result<String> {
        Ok(self.may_text(at)?.unwrap_or_default())
    }

    fn pairs(&self, first: usize, rows: usize) -> Result<Vec<(String, String)>> {
        (0..rows).map(|row| Ok((self.text(first + 2 * row)?, self.text(first + 2 * row + 1)?))).collect()
    }
}

/// The VM in a line for a log.
impl fmt::Debug for Vm {
    fn fmt(&self, f: &mut fmt::Formatter<'_>) -> fmt::Result {
        let (describe, handle) = (self.library.functions.describe, self.handle);
        // SAFETY: the room is valid for its length.
        match written(|at, len| unsafe { describe(handle, at, len) }) {
            Ok(line) => write!(f, "Vm({})", utf8(line)),
            Err(why) => write!(f, "Vm({})", why),
        }
    }
}

/// A text of the library's, which is UTF-8.
pub(crate) fn utf8(bytes: Vec<u8>) -> String {
    String::from_utf8(bytes).unwrap_or_else(|it| String::from_utf8_lossy(it.as_bytes()).into_owned())
}

/// Fails by a status that isn't done.
pub(crate) fn done(status: u32) -> Result<()> {
    if status == sys::DONE {
        Ok(())
    } else {
        Err(Error::of_status(status))
    }
}

/// What a call writes to a room, which is asked for first; `None` if there is no such part.
pub(crate) fn may_be_written(call: impl Fn(*mut u8, usize) -> Told) -> Result<Option<Vec<u8>>> {
    let mut room = Vec::with_capacity(64);
    loop {
        let told = call(room.as_mut_ptr(), room.capacity());
        match told.status {
            sys::DONE => {
                // SAFETY: as many bytes were written to the front of the room.
                unsafe { room.set_len(told.len.min(room.capacity())) };
                return Ok(Some(room));
            }
            sys::NO_ROOM => room.try_reserve(told.len).map_err(|_| Error::of_status(sys::NO_MEMORY))?,
            sys::NO_PART => return Ok(None),
            status => return Err(Error::of_status(status)),
        }
    }
}

/// What a call writes to a room.
pub(crate) fn written(call: impl Fn(*mut u8, usize) -> Told) -> Result<Vec<u8>> {
    Ok(may_be_written(call)?.unwrap_or_default())
}

/// Whether it is an error by which the VM has failed: only then it is of this kind.
fn is_failure(replied: &Replied) -> bool {
    replied.status == sys::REFUSED && replied.kind == sys::ERROR
}
