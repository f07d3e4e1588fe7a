//! The cases: what each is given, and its calls. c/typed.c makes the same ones.

use crate::player::{get, nap, set, Given, Player, FILLER, KEYS, MEGABYTE};
use bytes::Bytes;
use restate_sdk_shared_core::{
    fed, AwaitResponse, PayloadOptions, RetryPolicy, RunExitResult, Target, UnresolvedFuture, VM,
};

const VALUE: usize = 20;
const SUSPENDED: u16 = 599;

fn sleeps(p: &mut Player) {
    let mut vm = p.begin();
    for _ in 0..p.n() {
        let handle = nap(&mut vm);
        p.drain(&mut vm);
        p.next(&mut vm);
        p.await_and_take(&mut vm, handle);
    }
    p.drain(&mut vm);
}

fn waits(p: &mut Player) {
    let mut vm = p.begin();
    for _ in 0..p.n() {
        let handle = nap(&mut vm);
        let response = p.awaits(&mut vm, UnresolvedFuture::Single(handle));
        assert!(matches!(
            response,
            AwaitResponse::WaitingExternalProgress { .. }
        ));
        p.drain(&mut vm);
        p.next(&mut vm);
        p.await_and_take(&mut vm, handle);
    }
    p.drain(&mut vm);
}

fn replay(p: &mut Player) {
    let mut vm = p.begin();
    for _ in 0..p.n() {
        let handle = nap(&mut vm);
        p.await_and_take(&mut vm, handle);
    }
    p.drain(&mut vm);
}

fn in_order(p: &mut Player, is_last_first: bool) {
    let mut vm = p.begin();
    for _ in 0..p.n() {
        nap(&mut vm);
    }
    p.drain(&mut vm);
    p.next(&mut vm);
    for i in 0..p.n() {
        let at = if is_last_first { p.n() - 1 - i } else { i };
        p.await_and_take(&mut vm, Player::handle(at));
    }
    p.drain(&mut vm);
}

fn first(p: &mut Player) {
    in_order(p, false);
}

fn last(p: &mut Player) {
    in_order(p, true);
}

fn signals(p: &mut Player) {
    let mut vm = p.begin();
    p.next(&mut vm);
    for _ in 0..p.n() {
        let handle = vm.create_signal_handle("a".to_owned()).unwrap();
        p.await_and_take(&mut vm, handle);
    }
    p.drain(&mut vm);
}

fn lazy(p: &mut Player) {
    let mut vm = p.begin();
    for _ in 0..p.n() {
        let handle = get(&mut vm, "key");
        p.drain(&mut vm);
        p.next(&mut vm);
        p.await_and_take(&mut vm, handle);
    }
    p.drain(&mut vm);
}

fn eager(p: &mut Player) {
    let mut vm = p.begin();
    for i in 0..p.n() {
        let handle = get(&mut vm, p.key(i));
        p.await_and_take(&mut vm, handle);
    }
    p.drain(&mut vm);
}

/// The keys key1, key2, .. without the cost of `format!`.
fn name_key(key: &mut [u8; 16], mut of: u32) -> &str {
    let (mut digits, mut len) = ([0; 10], 0);
    while of > 0 {
        digits[len] = b'0' + (of % 10) as u8;
        of /= 10;
        len += 1;
    }
    key[..3].copy_from_slice(b"key");
    for i in 0..len {
        key[3 + i] = digits[len - 1 - i];
    }
    std::str::from_utf8(&key[..3 + len]).unwrap()
}

fn new_keys(p: &mut Player) {
    let mut vm = p.begin();
    for i in 1..=p.n() {
        let mut room = [0; 16];
        let key = name_key(&mut room, i);
        set(&mut vm, key, VALUE);
        let handle = get(&mut vm, key);
        p.await_and_take(&mut vm, handle);
    }
    p.drain(&mut vm);
}

fn one_key(p: &mut Player) {
    let mut vm = p.begin();
    for _ in 0..p.n() {
        set(&mut vm, "key", VALUE);
        let handle = get(&mut vm, "key");
        p.await_and_take(&mut vm, handle);
    }
    p.drain(&mut vm);
}

fn calls_of(p: &mut Player, size: usize) {
    let mut vm = p.begin();
    for _ in 0..p.n() {
        let target = Target {
            service: "Service".to_owned(),
            handler: "handler".to_owned(),
            key: Some("k".to_owned()),
            idempotency_key: None,
            scope: None,
            limit_key: None,
            headers: Vec::new(),
        };
        let parameter = Bytes::copy_from_slice(&FILLER[..size]);
        vm.sys_call(target, parameter, None, PayloadOptions::default())
            .unwrap();
        p.drain(&mut vm);
    }
    p.next(&mut vm);
    for i in 0..2 * p.n() {
        p.await_and_take(&mut vm, Player::handle(i));
    }
    p.drain(&mut vm);
}

fn calls_100(p: &mut Player) {
    calls_of(p, 100);
}

fn calls_10k(p: &mut Player) {
    calls_of(p, 10240);
}

fn runs(p: &mut Player) {
    let mut vm = p.begin();
    for _ in 0..p.n() {
        let handle = vm.sys_run("charge".to_owned()).unwrap().handle;
        let response = p.awaits(&mut vm, UnresolvedFuture::Single(handle));
        assert_eq!(response, AwaitResponse::ExecuteRun(handle));
        let result = RunExitResult::Success(Bytes::copy_from_slice(&FILLER[..100]));
        vm.propose_run_completion(handle, result, RetryPolicy::Infinite)
            .unwrap();
        p.drain(&mut vm);
        p.next(&mut vm);
        p.await_and_take(&mut vm, handle);
    }
    p.drain(&mut vm);
}

fn tree(p: &mut Player) {
    let mut vm = p.begin();
    let handles: Vec<_> = (0..p.n()).map(|_| nap(&mut vm)).collect();
    let all = || handles.iter().copied().map(UnresolvedFuture::Single);
    let tree = || UnresolvedFuture::AllCompleted(all().collect());
    let response = p.awaits(&mut vm, tree());
    assert!(matches!(
        response,
        AwaitResponse::WaitingExternalProgress { .. }
    ));
    p.drain(&mut vm);
    p.next(&mut vm);
    let response = p.awaits(&mut vm, tree());
    assert_eq!(response, AwaitResponse::AnyCompleted);
    for handle in handles {
        p.take(&mut vm, handle);
    }
    p.drain(&mut vm);
}

/// Each is an attempt: of five recorded sleeps the last is pending, the input ends, and the attempt is suspended.
fn attempts(p: &mut Player) {
    for _ in 0..p.n() {
        attempt(p);
    }
}

fn attempt(p: &mut Player) {
    let mut vm = p.begin();
    for _ in 0..4 {
        let handle = nap(&mut vm);
        p.await_and_take(&mut vm, handle);
    }
    let handle = nap(&mut vm);
    vm.notify_input_closed();
    let suspended = vm.do_await(UnresolvedFuture::Single(handle));
    assert_eq!(suspended.unwrap_err().code(), SUSPENDED);
    p.drain(&mut vm);
}

fn megabytes_out(p: &mut Player) {
    let mut vm = p.begin();
    for _ in 0..p.n() {
        set(&mut vm, "key", MEGABYTE);
        p.drain(&mut vm);
    }
    p.drain(&mut vm);
}

fn one_by_one(g: &mut Given) {
    fed::start(&mut g.first, 1, true, 0, &[]);
    for i in 1..=g.n {
        fed::void(&mut g.rest, i);
        g.piece_ends();
    }
}

fn recorded(g: &mut Given) {
    fed::start(&mut g.first, 1 + 2 * g.n, true, 0, &[]);
    for i in 1..=g.n {
        fed::sleep_command(&mut g.first, i);
        fed::void(&mut g.first, i);
    }
}

fn all_at_once(g: &mut Given) {
    fed::start(&mut g.first, 1, true, 0, &[]);
    for i in 1..=g.n {
        fed::void(&mut g.rest, i);
    }
    g.piece_ends();
}

fn deliveries(g: &mut Given) {
    fed::start(&mut g.first, 1, true, 0, &[]);
    for _ in 0..g.n {
        fed::delivery(&mut g.rest, "a", &FILLER[..VALUE]);
    }
    g.piece_ends();
}

fn values_of(g: &mut Given, len: usize) {
    fed::start(&mut g.first, 1, true, 0, &[]);
    for i in 1..=g.n {
        fed::value(&mut g.rest, i, &FILLER[..len]);
        g.piece_ends();
    }
}

fn values(g: &mut Given) {
    values_of(g, VALUE);
}

fn megabytes(g: &mut Given) {
    values_of(g, MEGABYTE);
}

fn whole_state(g: &mut Given) {
    fed::start(&mut g.first, 1, false, KEYS, &FILLER[..VALUE]);
}

fn empty_state(g: &mut Given) {
    fed::start(&mut g.first, 1, false, 0, &[]);
}

fn results(g: &mut Given) {
    fed::start(&mut g.first, 1, true, 0, &[]);
    for i in 1..=g.n {
        fed::invocation_id(&mut g.rest, 2 * i - 1, "inv_1234567890abcdef");
        fed::value(&mut g.rest, 2 * i, &FILLER[..100]);
    }
    g.piece_ends();
}

fn acknowledgements(g: &mut Given) {
    fed::start(&mut g.first, 1, true, 0, &[]);
    for i in 1..=g.n {
        fed::acknowledgement(&mut g.rest, i);
        g.piece_ends();
    }
}

fn five_sleeps(g: &mut Given) {
    fed::start(&mut g.first, 10, true, 0, &[]);
    for i in 1..=5 {
        fed::sleep_command(&mut g.first, i);
        if i < 5 {
            fed::void(&mut g.first, i);
        }
    }
}

pub struct Case {
    pub name: &'static str,
    pub play: fn(&mut Player),
    pub give: fn(&mut Given),
    /// Into pieces of how many bytes the first input is cut, or 0.
    pub cut: usize,
}

const fn case(name: &'static str, play: fn(&mut Player), give: fn(&mut Given)) -> Case {
    cut(name, play, give, 0)
}

const fn cut(name: &'static str, play: fn(&mut Player), give: fn(&mut Given), cut: usize) -> Case {
    Case {
        name,
        play,
        give,
        cut,
    }
}

pub const CASES: &[Case] = &[
    case("sleeps", sleeps, one_by_one),
    case("waits", waits, one_by_one),
    case("replay", replay, recorded),
    case("first", first, all_at_once),
    case("last", last, all_at_once),
    case("signals", signals, deliveries),
    case("lazy", lazy, values),
    case("eager", eager, whole_state),
    case("new_keys", new_keys, empty_state),
    case("one_key", one_key, empty_state),
    case("calls_100", calls_100, results),
    case("calls_10k", calls_10k, results),
    case("runs", runs, acknowledgements),
    case("tree", tree, all_at_once),
    case("attempts", attempts, five_sleeps),
    case("megabytes_out", megabytes_out, empty_state),
    case("megabytes_in", lazy, megabytes),
    cut("cut_64", replay, recorded, 64),
    cut("cut_4k", replay, recorded, 4096),
    cut("cut_64k", replay, recorded, 65536),
];
