//! A mismatch says in what the call isn't as the journal has it.

mod common;

use common::begun;
use palqytun::{
    frames, CommandType, Difference, ErrorBehavior, HandlerError, NonDeterministicChecks, NonEmptyValue, Options,
    PayloadOptions, Result, Target, Vm, VmError,
};

const ADA: &str = r#"Call service_name="Greeter" handler_name="greet" parameter="Ada""#;
const SLEEP: &str = "Sleep wake_up_time=1000 result_completion_id=1";

fn ada(first: u32, second: u32) -> String {
    format!("{} invocation_id_notification_idx={} result_completion_id={}", ADA, first, second)
}

/// A VM of version 7 that has its input, with these lines of frames behind it in the journal.
fn over(options: &Options, lines: &[&str]) -> Vm {
    let mut vm = Vm::new("application/vnd.restate.invocation.v7", options).unwrap();
    let start = format!(r#"Start id="abc" debug_id="abc" known_entries={}"#, 1 + lines.len());
    for line in [start.as_str(), "Input"].iter().chain(lines) {
        vm.notify_input(&frames::frame_of(line).unwrap()).unwrap();
    }
    vm.sys_input().unwrap();
    vm
}

fn refusal<T>(made: Result<T>) -> VmError {
    made.err().unwrap().vm().unwrap().clone()
}

fn greet(vm: &mut Vm, parameter: &str, name: &str, options: PayloadOptions) -> VmError {
    let target = Target { service: "Greeter", handler: "greet", ..Target::default() };
    refusal(vm.sys_call(&target, parameter.as_bytes(), name, options))
}

fn values(it: &VmError) -> (&str, Option<&str>, Option<&str>) {
    let found = it.difference.as_ref().unwrap();
    (&found.field, found.recorded.as_deref(), found.asked.as_deref())
}

#[test]
fn a_call_with_another_argument() {
    let mut vm = over(&Options::default(), &[&ada(1, 2)]);
    let error = greet(&mut vm, "Bob", "", PayloadOptions::STABLE);
    let wanted = Difference {
        index: 1,
        field: "parameter".to_string(),
        recorded: Some(r#""Ada""#.to_string()),
        asked: Some(r#""Bob""#.to_string()),
        recorded_type: Some(CommandType::Call),
        asked_type: Some(CommandType::Call),
    };
    assert_eq!(error.difference, Some(wanted));
    let text = r#"570 JournalMismatch: CommandMismatchError: command 1, Call, is recorded with parameter "Ada", and the call gives "Bob""#;
    assert_eq!(error.to_string(), text);
    let own = error.in_words(|it| Some("ctx.service_call").filter(|_| it == CommandType::Call));
    assert_eq!(own, text.replace(", Call,", ", ctx.service_call,"));
    assert_eq!(refusal(vm.sys_sleep("", 1)).to_string(), text);
}

#[test]
fn what_replay_does_not_compare() {
    let unchecked =
        Options { non_determinism_checks: NonDeterministicChecks::PayloadChecksDisabled, ..Options::default() };
    for (options, payload) in [(Options::default(), PayloadOptions::UNSTABLE), (unchecked, PayloadOptions::STABLE)] {
        let mut vm = over(&options, &[&format!(r#"{} name="n""#, ada(1, 2))]);
        assert_eq!(values(&greet(&mut vm, "Bob", "m", payload)), ("name", Some(r#""n""#), Some(r#""m""#)));
    }
}

#[test]
fn ids_follow_those_before() {
    for (parameter, wanted) in [
        ("Bob", ("parameter", Some(r#""Ada""#), Some(r#""Bob""#))),
        ("Ada", ("result_completion_id", Some("7"), Some("3"))),
    ] {
        let mut vm = over(&Options::default(), &[SLEEP, &ada(2, 7)]);
        vm.sys_sleep("", 1000).unwrap();
        assert_eq!(values(&greet(&mut vm, parameter, "", PayloadOptions::STABLE)), wanted);
    }
}

#[test]
fn another_command_and_an_await() {
    let error = refusal(over(&Options::default(), &[SLEEP]).sys_run("charge"));
    assert_eq!(values(&error), ("type", Some("Sleep"), Some("Run")));
    assert_eq!(error.difference.unwrap().to_string(), "command 1 is recorded as Sleep, and the call makes Run");
    let mut vm = over(&Options::default(), &[SLEEP]);
    let handle = vm.create_signal_handle("go").unwrap();
    let waits = refusal(vm.do_await(handle)).difference.unwrap();
    assert_eq!(waits.to_string(), "command 1 is recorded as Sleep, and the code awaits what hasn't come");
    assert_eq!(waits.asked_type, None);
}

#[test]
fn what_is_done_after_an_error() {
    let mut vm = begun();
    let error = HandlerError {
        code: 418,
        message: "no tea",
        stacktrace: "",
        behavior: ErrorBehavior::Pause,
        next_retry_delay_millis: Some(500),
    };
    vm.notify_error(&error, None).unwrap();
    let error = refusal(vm.sys_run("charge"));
    assert_eq!((error.behavior, error.next_retry_delay_millis), (ErrorBehavior::Pause, Some(500)));
}

#[test]
fn without_a_difference() {
    let mut vm = over(&Options::default(), &[SLEEP]);
    let error = HandlerError {
        code: 570,
        message: "CommandTypeMismatchError",
        stacktrace: "",
        behavior: ErrorBehavior::Retry,
        next_retry_delay_millis: None,
    };
    vm.notify_error(&error, None).unwrap();
    assert_eq!(refusal(vm.sys_run("charge")).difference, None);
    let mut ended = begun();
    ended.sys_end().unwrap();
    assert_eq!(refusal(ended.sys_run("charge")).difference, None);
}

#[test]
fn a_long_value_is_shortened() {
    let mut vm = over(&Options::default(), &[r#"Output result=value("a")"#]);
    let output = [vec![b'"', 255], vec![0; 1 << 20]].concat();
    let error = refusal(vm.sys_write_output(&NonEmptyValue::Success(&output), PayloadOptions::STABLE));
    let (_, recorded, asked) = values(&error);
    let asked = asked.unwrap();
    assert_eq!((recorded, asked.len()), (Some(r#"value("a")"#), 122));
    assert!(asked.starts_with(r#"value("\x22\xff\x00"#) && asked.ends_with(".."));
}
