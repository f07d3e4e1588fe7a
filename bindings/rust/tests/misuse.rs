//! What a caller may do wrong is an error, and the VM goes on.

mod common;

use common::begun;
use palqytun::{
    frames, library, sys, Awaited, Error, HandlerError, Journal, MessageType, NonEmptyValue, NotificationHandle,
    Options, PayloadOptions, RetryPolicy, RunResult, State, Status, Target, UnresolvedFuture, Vm,
};
use std::{ptr, thread};

const LATER: HandlerError<'_> = HandlerError {
    code: 503,
    message: "later",
    stacktrace: "at 1",
    behavior: palqytun::ErrorBehavior::Retry,
    next_retry_delay_millis: None,
};

#[test]
fn a_vm_goes_from_thread_to_thread() {
    let mut vm = begun();
    assert_eq!(format!("{:?}", vm), "Vm(V7 abc Processing, last command 0)");
    let vm = thread::spawn(move || {
        vm.sys_sleep("", 1000).unwrap();
        vm
    });
    let mut vm = vm.join().unwrap();
    assert_eq!(vm.sys_sleep("", 2000).unwrap(), NotificationHandle::from(18));
}

#[test]
fn threads_have_vms_of_their_own() {
    let threads: Vec<_> = (0..4)
        .map(|_| {
            thread::spawn(|| {
                for _ in 0..200 {
                    let mut vm = begun();
                    vm.sys_state_set("key", b"value", "", PayloadOptions::STABLE).unwrap();
                    assert!(!vm.take_output().unwrap().is_empty());
                }
            })
        })
        .collect();
    for it in threads {
        it.join().unwrap();
    }
}

#[test]
fn output_is_lent_as_it_is_taken() {
    let (mut one, mut other) = (begun(), begun());
    let long = vec![7; 100_000];
    for value in [&b"value"[..], &long, b"", &long] {
        for vm in [&mut one, &mut other] {
            vm.sys_state_set("key", value, "", PayloadOptions::STABLE).unwrap();
        }
        assert_eq!(one.lend_output().unwrap(), other.take_output().unwrap());
        assert_eq!(one.lend_output(), Ok(&[][..]));
        assert_eq!(one.take_output(), Ok(vec![]));
    }
}

#[test]
fn a_handle_of_another_vm_stands_for_nothing() {
    let (mut one, mut other) = (begun(), begun());
    let handles: Vec<_> = (0..5).map(|_| one.create_signal_handle("go").unwrap()).collect();
    assert!(!other.is_completed(handles[4]).unwrap());
    assert_eq!(other.take_notification(handles[4]), Ok(None));
    let waits = Awaited::WaitingExternalProgress { waiting_input: true, waiting_run_proposal: false };
    assert_eq!(other.do_await(handles[4]), Ok(waits));
    assert_eq!(one.state(), Ok(State::Processing));
}

#[test]
fn handles_of_another_kind_are_refused() {
    let it = &library().unwrap().functions;
    let (mut vm, mut journal) = (ptr::null_mut(), ptr::null_mut());
    // SAFETY: the pointers are valid, and a handle may be any.
    unsafe {
        assert_eq!(((it.open)(&mut vm), (it.journal_open)(&mut journal)), (sys::DONE, sys::DONE));
        assert_eq!((it.state)(journal).status, sys::BAD_HANDLE);
        assert_eq!((it.journal_entries)(vm).status, sys::BAD_HANDLE);
        assert_eq!((it.state)(0xdead_beef_usize as sys::Handle).status, sys::BAD_HANDLE);
        assert_eq!((it.close)(journal), sys::BAD_HANDLE);
        assert_eq!(((it.close)(vm), (it.close)(vm)), (sys::DONE, sys::NO_SESSION));
        assert_eq!(((it.journal_close)(journal), (it.journal_close)(journal)), (sys::DONE, sys::NO_JOURNAL));
    }
}

#[test]
fn what_names_no_case_is_refused() {
    let mut vm = begun();
    let run = vm.sys_run("charge").unwrap();
    assert_eq!(vm.do_await(run.handle), Ok(Awaited::ExecuteRun(run.handle)));
    let policy = RetryPolicy::Exponential {
        initial_interval_millis: 100,
        factor: (3, 0),
        max_interval_millis: None,
        max_attempts: None,
        max_duration_millis: None,
        pauses: false,
    };
    let result = RunResult::RetryableFailure { attempt_duration_millis: 20, error: LATER };
    let error = vm.propose_run_completion(run.handle, &result, &policy).unwrap_err();
    assert_eq!(error.to_string(), "the denominator of factor must be from 1 to 4294967295, not 0");
    assert_eq!(vm.state(), Ok(State::Processing));
}

#[test]
fn a_tree_without_children_is_awaited() {
    let mut vm = begun();
    assert_eq!(vm.do_await(UnresolvedFuture::all_completed::<NotificationHandle>([])), Ok(Awaited::AnyCompleted));
}

#[test]
fn bytes_that_are_no_frames() {
    assert_eq!(frames::line_of(b"x"), Err(Error::Status(Status::NotAFrame)));
    assert_eq!(frames::frame_of("Sleep soundly"), Err(Error::Status(Status::BadLine)));
    assert_eq!(frames::completion(1, &frames::frame_of("End").unwrap()), Err(Error::Status(Status::NoResult)));
    assert_eq!(frames::is_awake(&frames::frame_of("End").unwrap(), &[]), Err(Error::Status(Status::NotASuspension)));
    assert_eq!(Error::Status(Status::NotAFrame).to_string(), "NotAFrame: it isn't one whole frame");
    let mut journal = Journal::new().unwrap();
    for version in [4, 9] {
        let said = format!("version must be from 5 to 8, not {}", version);
        assert_eq!(journal.store(version, b"").unwrap_err().to_string(), said);
    }
    assert_eq!(journal.entry(b"x"), Err(Error::Status(Status::BadJournal)));
}

#[test]
fn rows_that_are_stored_have_their_effects() {
    let mut journal = Journal::of([frames::frame_of(r#"Input value="Till""#).unwrap()]).unwrap();
    let run = frames::frame_of(r#"Run name="a" result_completion_id=1"#).unwrap();
    let proposal = frames::frame_of(r#"ProposeRunCompletion id=1 result=value("x")"#).unwrap();
    let stored = journal.store(7, &[run, proposal].concat()).unwrap();
    assert_eq!(stored.rows.iter().map(|it| it.completes).collect::<Vec<_>>(), [None, Some(1)]);
    assert!(!stored.feed.is_empty());
    let effect = stored.rows[0].effect().unwrap();
    assert_eq!((effect.ty, effect.id, effect.text(0).unwrap().as_str()), (MessageType::RunCommand, 1, "a"));
    journal.undo().unwrap();
    assert_eq!(journal.entries(), Ok(1));
}

#[test]
fn an_error_has_all_its_fields() {
    let replayed = |line: &str| frames::frame_of(line).unwrap();
    let mut vm = Vm::new("application/vnd.restate.invocation.v7", &Options::default()).unwrap();
    vm.notify_input(&replayed(r#"Start id="abc" debug_id="abc" known_entries=2"#)).unwrap();
    vm.notify_input(&replayed(r#"Input value="Till""#)).unwrap();
    vm.notify_input(&replayed(r#"Sleep wake_up_time=1000 result_completion_id=1 name="nap""#)).unwrap();
    vm.sys_input().unwrap();
    let target = Target { service: "Greeter", handler: "greet", ..Target::default() };
    let error = vm.sys_call(&target, b"Ada", "call", PayloadOptions::STABLE).unwrap_err();
    assert!(error.is_journal_mismatch());
    assert_eq!(
        error.to_string(),
        r#"570 JournalMismatch: CommandTypeMismatchError: command 1 is recorded as Sleep, and the call makes Call"#
    );
    let related = error.vm().unwrap().related.clone().unwrap();
    assert_eq!((related.index, related.name.as_str()), (1, "call"));
    assert_eq!(vm.sys_end(), Err(error));
}

#[test]
fn an_error_of_the_handlers_own() {
    let mut vm = begun();
    let tea = HandlerError { code: 418, message: "no tea", ..LATER };
    vm.notify_error(&tea, Some(palqytun::RelatedCommand::Last)).unwrap();
    let error = vm.sys_end().unwrap_err();
    let found = error.vm().unwrap();
    assert_eq!((found.code, found.message.as_str(), found.stacktrace.as_str()), (418, "no tea", "at 1"));
}

#[test]
fn what_errors_say() {
    let error = Vm::new("text/plain", &Options::default()).unwrap_err();
    let allowed = "the content type must be application/vnd.restate.invocation.vN with N from 5 to 8";
    assert_eq!(error.to_string(), format!("415 UnsupportedMediaType: BadContentType ({})", allowed));
    let (mut ended, mut own) = (begun(), begun());
    ended.sys_end().unwrap();
    let error = ended.sys_sleep("", 1).unwrap_err();
    assert_eq!(error.to_string(), r#"598 Closed: ClosedError (command 1: SleepCommand "")"#);
    own.notify_error(&HandlerError { code: 570, message: "no tea", ..LATER }, None).unwrap();
    assert_eq!(own.sys_end().unwrap_err().to_string(), "570 no tea");
}

#[test]
fn a_suspension() {
    let mut vm = begun();
    let slept = vm.sys_sleep("nap", 1000).unwrap();
    vm.notify_input_closed().unwrap();
    assert!(vm.do_await(slept).unwrap_err().is_suspended());
    let closed = vm.is_ready_to_execute().unwrap_err();
    assert!(closed.is_closed() && !closed.is_suspended() && !closed.is_no_memory());
}

#[test]
fn an_error_of_the_handlers_own_is_none_of_the_vms() {
    for (code, message) in [(599, "SUSPENDED"), (500, "")] {
        let mut vm = begun();
        vm.notify_error(&HandlerError { code, message, ..LATER }, None).unwrap();
        let error = vm.do_await(NotificationHandle::from(1)).unwrap_err();
        let found = error.vm().unwrap();
        assert_eq!((found.code, found.message.as_str()), (code, message));
        assert!(!error.is_suspended() && !error.is_no_memory());
    }
    assert!(Error::Status(Status::NoMemory).is_no_memory());
}

/// A VM that replays a sleep.
fn replaying() -> Vm {
    let mut vm = Vm::new("application/vnd.restate.invocation.v7", &Options::default()).unwrap();
    let lines = ["Start known_entries=2", "Input", "Sleep wake_up_time=1000 result_completion_id=1"];
    for line in lines {
        vm.notify_input(&frames::frame_of(line).unwrap()).unwrap();
    }
    vm.sys_input().unwrap();
    vm
}

/// Wants an error with this code that is none of the VM's own.
fn is_plain(error: Error, code: u16) {
    assert_eq!(error.code(), Some(code));
    assert!(!error.is_suspended() && !error.is_closed() && !error.is_journal_mismatch() && !error.is_no_memory());
}

#[test]
fn an_error_that_is_handed_in_is_plain() {
    for (code, message) in [(570, "CommandTypeMismatchError"), (598, "ClosedError"), (599, "SUSPENDED"), (500, "")] {
        let given = HandlerError { code, message, ..LATER };
        let [mut vm, mut ended, mut ran] = [begun(), begun(), begun()];
        vm.notify_error(&given, None).unwrap();
        vm.notify_error(&LATER, None).unwrap(); // it keeps its first error
        ended.sys_end().unwrap();
        ended.notify_error(&given, None).unwrap();
        let run = ran.sys_run("charge").unwrap();
        ran.do_await(run.handle).unwrap();
        let failed = RunResult::RetryableFailure { attempt_duration_millis: 1, error: given };
        is_plain(ran.propose_run_completion(run.handle, &failed, &RetryPolicy::Infinite).unwrap_err(), code);
        for mut it in [vm, ended, ran] {
            is_plain(it.sys_sleep("", 1).unwrap_err(), code);
            is_plain(it.sys_end().unwrap_err(), code);
        }
    }
}

#[test]
fn an_error_after_a_failure_is_not_handed_in() {
    let mut vm = replaying();
    assert!(vm.sys_run("charge").unwrap_err().is_journal_mismatch());
    let same = HandlerError { code: 570, message: "CommandTypeMismatchError", ..LATER };
    vm.notify_error(&same, None).unwrap();
    assert!(vm.sys_run("charge").unwrap_err().is_journal_mismatch());
}

#[test]
fn a_failure_that_is_the_result_of_a_run_is_not_handed_in() {
    let mut vm = begun();
    let run = vm.sys_run("charge").unwrap();
    vm.do_await(run.handle).unwrap();
    let failed = RunResult::RetryableFailure { attempt_duration_millis: 1, error: HandlerError { code: 598, ..LATER } };
    vm.propose_run_completion(run.handle, &failed, &RetryPolicy::None).unwrap();
    vm.sys_end().unwrap();
    let ended = vm.is_ready_to_execute().unwrap_err();
    assert!(ended.is_closed() && !ended.is_no_memory());
    assert!(vm.sys_sleep("", 1).unwrap_err().is_closed());
}

/// The version has no such behavior, and nobody waits for the run.
#[test]
fn an_own_error_of_a_call_that_hands_one_in_is_own() {
    for code in [418, 500, 573] {
        let given = HandlerError { code, message: "mine", behavior: palqytun::ErrorBehavior::Pause, ..LATER };
        let mut old = Vm::new(palqytun::content_type(6).unwrap().as_str(), &Options::default()).unwrap();
        old.notify_error(&given, None).unwrap();
        let error = old.sys_end().unwrap_err();
        assert_eq!(error.to_string(), "573 UnsupportedFeature: UnsupportedFeatureForNegotiatedVersion");
        let (mut vm, failed) = (begun(), RunResult::RetryableFailure { attempt_duration_millis: 1, error: given });
        let handle = NotificationHandle::from(99);
        let error = vm.propose_run_completion(handle, &failed, &RetryPolicy::Infinite).unwrap_err();
        assert_eq!(error.to_string(), "500 Internal: no pending run");
        assert_eq!(vm.sys_end(), Err(error));
    }
}

#[test]
fn a_call_after_the_end() {
    let mut vm = begun();
    vm.sys_write_output(&NonEmptyValue::Success(b"done"), PayloadOptions::STABLE).unwrap();
    vm.sys_end().unwrap();
    assert!(vm.sys_sleep("", 1).unwrap_err().is_closed());
}
