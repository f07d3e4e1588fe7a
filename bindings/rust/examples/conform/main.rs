//! Plays the conformance suite (docs/CONFORMANCE.md): it reads rows on standard input, a row a line, and prints `ok ROW`, or what differs and
//! then `not ok ROW`. Its status is 0 if all rows fit.

mod arguments;
mod json;

use arguments::{future, hex, invocation, options, policy, run_result, Pairs};
use json::{read, Json, NULL};
use palqytun::{Awaited, Error, PayloadOptions, Result, Value, Vm};
use std::io::BufRead;

fn main() {
    let mut status = 0;
    for line in std::io::stdin().lock().lines() {
        if !play(&read(&line.expect("a line"))) {
            status = 1;
        }
    }
    std::process::exit(status);
}

/// Plays a row; whether it fits.
fn play(row: &Json) -> bool {
    let mut vm: Option<Vm> = None;
    let mut is_well = true;
    let place = row.get("row").str();
    for (at, step) in row.get("steps").list().iter().enumerate() {
        let call = step.get("call").str();
        let found = if call == "new" {
            begin(step, &mut vm)
        } else {
            match vm.as_mut() {
                Some(vm) => made(vm, call, step),
                None => break,
            }
        };
        if !fits(step, &found) {
            println!("{} ({}), step {}, {}: {:?}", place, row.get("under").str(), at, call, found);
            is_well = false;
        }
    }
    println!("{} {}", if is_well { "ok" } else { "not ok" }, place);
    is_well
}

fn fits(step: &Json, found: &Result<Json>) -> bool {
    match found {
        Ok(it) => match step.may_get("frames") {
            Some(types) => frames(&hex(it.str())).map(Json::List).as_ref() == Some(types),
            None => step.may_get("returns") == Some(it),
        },
        Err(Error::Vm(it)) => {
            let asks = step.may_get("error").and_then(|it| it.may_get("difference")).is_some();
            let (code, message) = (("code", Json::number(it.code)), ("message", Json::text(&it.message)));
            let error = match it.difference.as_ref().filter(|_| asks) {
                Some(it) => Json::object([code, message, ("difference", Json::text(it.to_string()))]),
                None => Json::object([code, message]),
            };
            step.may_get("error") == Some(&error)
        }
        Err(_) => false,
    }
}

/// The types of whole frames; none if there is anything else.
fn frames(mut output: &[u8]) -> Option<Vec<Json>> {
    let mut found = Vec::new();
    while !output.is_empty() {
        let len = u64::from_be_bytes(output.get(2..10)?.try_into().ok()?);
        found.push(Json::number(u16::from_be_bytes([output[0], output[1]])));
        output = output.get(10 + usize::try_from(len).ok()?..)?;
    }
    Some(found)
}

fn begin(step: &Json, vm: &mut Option<Vm>) -> Result<Json> {
    *vm = None;
    let made = Vm::new(step.get("content_type").may_str(), &options(step.get("options")))?;
    Ok(Json::number(vm.insert(made).version()))
}

fn handle(of: &Json) -> palqytun::NotificationHandle {
    of.u32().into()
}

fn handles<const N: usize>(of: [palqytun::NotificationHandle; N]) -> Json {
    Json::List(of.into_iter().map(|it| Json::number(u32::from(it))).collect())
}

fn one(of: palqytun::NotificationHandle) -> Json {
    Json::number(u32::from(of))
}

fn nothing(_: ()) -> Json {
    NULL
}

/// Makes the call of a step, and returns what it returned as the suite has it.
fn made(vm: &mut Vm, call: &str, step: &Json) -> Result<Json> {
    let text = |name: &str| step.get(name).str();
    let name = text("name");
    let unstable = PayloadOptions { unstable_serialization: step.get("unstable").is_true() };
    let bytes = hex(text("value"));
    let headers = Pairs::of(step.get("headers"));
    let target = palqytun::Target {
        service: text("service"),
        handler: text("handler"),
        key: step.get("key").may_str(),
        idempotency_key: step.get("idempotency_key").may_str(),
        scope: step.get("scope").may_str(),
        limit_key: step.get("limit_key").may_str(),
        headers: &headers.lent(),
    };
    let value = arguments::Value::of(step.get("value"));
    Ok(match call {
        "get_response_head" => head(vm)?,
        "notify_input" => nothing(vm.notify_input(&hex(text("data")))?),
        "notify_input_closed" => nothing(vm.notify_input_closed()?),
        "notify_error" => nothing(vm.notify_error(&arguments::error(step), arguments::related(step.get("related")))?),
        "take_output" => Json::text(in_hex(&vm.take_output()?)),
        "is_ready_to_execute" => Json::Bool(vm.is_ready_to_execute()?),
        "is_completed" => Json::Bool(vm.is_completed(handle(step.get("handle")))?),
        "state" => Json::text(format!("{:?}", vm.state()?)),
        "last_command_index" => vm.last_command_index()?.map_or(Json::number(-1), Json::number),
        "do_await" => awaited(vm.do_await(future(step.get("future")))?),
        "take_notification" => taken(vm.take_notification(handle(step.get("handle")))?),
        "take_ephemeral_notification" => taken(vm.take_ephemeral_notification(step.get("id").u32())?),
        "sys_input" => input(vm)?,
        "sys_sleep" => one(vm.sys_sleep(name, step.get("wake_up_time").u64())?),
        "sys_state_get" => one(vm.sys_state_get(text("key"), name)?),
        "sys_state_get_keys" => one(vm.sys_state_get_keys(name)?),
        "ephemeral_state_get" => Json::number(vm.ephemeral_state_get(text("key"))?),
        "sys_state_set" => nothing(vm.sys_state_set(text("key"), &bytes, name, unstable)?),
        "sys_state_clear" => nothing(vm.sys_state_clear(text("key"), name)?),
        "sys_state_clear_all" => nothing(vm.sys_state_clear_all(name)?),
        "sys_call" => {
            let made = vm.sys_call(&target, &bytes, name, unstable)?;
            handles([made.invocation_id, made.result])
        }
        "sys_call_with_deadline" => {
            let time = step.get("wake_up_time").u64();
            let made = vm.sys_call_with_deadline(&target, &bytes, time, name, unstable)?;
            handles([made.invocation_id, made.result, made.deadline])
        }
        "sys_send" => one(vm.sys_send(&target, &bytes, step.get("at").may_u64(), name, unstable)?),
        "sys_cancel_invocation" => nothing(vm.sys_cancel_invocation(text("invocation_id"))?),
        "sys_attach_invocation" => one(vm.sys_attach_invocation(&invocation(step.get("target")))?),
        "sys_get_invocation_output" => one(vm.sys_get_invocation_output(&invocation(step.get("target")))?),
        "sys_awakeable" => {
            let made = vm.sys_awakeable()?;
            Json::object([("handle", one(made.handle)), ("id", Json::text(made.id))])
        }
        "sys_complete_awakeable" => nothing(value.lent(|it| vm.sys_complete_awakeable(text("id"), it, unstable))?),
        "create_signal_handle" => one(vm.create_signal_handle(name)?),
        "sys_complete_signal" => nothing(value.lent(|it| vm.sys_complete_signal(text("invocation_id"), name, it))?),
        "sys_get_promise" => one(vm.sys_get_promise(text("key"))?),
        "sys_peek_promise" => one(vm.sys_peek_promise(text("key"))?),
        "sys_complete_promise" => one(value.lent(|it| vm.sys_complete_promise(text("key"), it, unstable))?),
        "sys_run" => {
            let made = vm.sys_run(name)?;
            Json::object([("handle", one(made.handle)), ("replayed", Json::Bool(made.replayed))])
        }
        "propose_run_completion" => {
            let (of, under) = (handle(step.get("handle")), policy(step.get("policy")));
            nothing(run_result(step.get("result"), |it| vm.propose_run_completion(of, it, &under))?)
        }
        "sys_write_output" => nothing(value.lent(|it| vm.sys_write_output(it, unstable))?),
        "sys_end" => nothing(vm.sys_end()?),
        _ => panic!("no call is called {}", call),
    })
}

fn in_hex(bytes: &[u8]) -> String {
    bytes.iter().map(|it| format!("{:02x}", it)).collect()
}

/// A number, or a string of digits if not every reader of JSON has it whole.
fn exact(it: u64) -> Json {
    if it < 1 << 53 {
        Json::number(it)
    } else {
        Json::text(it.to_string())
    }
}

fn optional(it: Option<String>) -> Json {
    it.map_or(NULL, Json::Text)
}

fn head(vm: &mut Vm) -> Result<Json> {
    let (version, made) = (vm.version(), vm.get_response_head()?);
    let fields = [("status_code", Json::number(made.status_code)), ("version", Json::number(version))];
    Ok(Json::object([fields[0].clone(), fields[1].clone(), ("headers", Json::pairs(&made.headers))]))
}

fn input(vm: &mut Vm) -> Result<Json> {
    let found = vm.sys_input()?;
    Ok(Json::object([
        ("invocation_id", Json::text(found.invocation_id)),
        ("random_seed", exact(found.random_seed)),
        ("key", Json::text(found.key)),
        ("scope", optional(found.scope)),
        ("limit_key", optional(found.limit_key)),
        ("idempotency_key", optional(found.idempotency_key)),
        ("headers", Json::pairs(&found.headers)),
        ("value", Json::text(in_hex(&found.input))),
    ]))
}

fn awaited(it: Awaited) -> Json {
    match it {
        Awaited::AnyCompleted => Json::text("any"),
        Awaited::CancelSignalReceived => Json::text("cancelled"),
        Awaited::ExecuteRun(handle) => Json::object([("run", one(handle))]),
        Awaited::EphemeralNotificationReady(id) => Json::object([("ephemeral", Json::number(id))]),
        Awaited::WaitingExternalProgress { waiting_input, waiting_run_proposal } => {
            let fields = [("input", Json::Bool(waiting_input)), ("run", Json::Bool(waiting_run_proposal))];
            Json::object([("wait", Json::object(fields))])
        }
    }
}

fn taken(it: Option<Value>) -> Json {
    match it {
        None => Json::text("none"),
        Some(Value::Void) => Json::text("void"),
        Some(Value::Success(bytes)) => Json::object([("success", Json::text(in_hex(&bytes)))]),
        Some(Value::StateKeys(keys)) => {
            Json::object([("keys", Json::List(keys.into_iter().map(Json::Text).collect()))])
        }
        Some(Value::InvocationId(id)) => Json::object([("invocation", Json::text(id))]),
        Some(Value::Failure(it)) => {
            let said = [("code", Json::number(it.code)), ("message", Json::text(it.message))];
            let [code, message] = said;
            Json::object([("failure", Json::object([code, message, ("metadata", Json::pairs(&it.metadata))]))])
        }
    }
}
