//! What a case is given, and the calls that all cases make.

use bytes::Bytes;
use restate_sdk_shared_core::{
    AwaitResponse, CoreVM, ImplicitCancellationOption, NotificationHandle, PayloadOptions,
    UnresolvedFuture, VMOptions, Value, VM,
};
use std::fmt::{self, Display, Formatter};
use std::time::Duration;

pub const MEGABYTE: usize = 1 << 20;
pub const FILLER: &[u8] = &[b'v'; MEGABYTE];
pub const KEYS: u32 = 100;
const VERSION: &str = "application/vnd.restate.invocation.v7";
const FIRST_HANDLE: u32 = 17;

/// The bytes with which the attempt begins, in pieces of `cut` bytes if that isn't 0, and those that are fed later, piece by piece.
#[derive(Default)]
pub struct Given {
    pub n: u32,
    pub first: Vec<u8>,
    pub rest: Vec<u8>,
    ends: Vec<usize>,
    cut: usize,
}

impl Given {
    pub fn new(n: u32, cut: usize) -> Self {
        Self {
            n,
            cut,
            ..Self::default()
        }
    }

    pub fn piece_ends(&mut self) {
        self.ends.push(self.rest.len());
    }
}

pub struct Player {
    given: Given,
    keys: Vec<String>,
    cancels: bool,
    out: Vec<u8>,
    fed: usize,
    awake: u64,
    sent: usize,
    taken: usize,
}

impl Player {
    pub fn new(given: Given, cancels: bool) -> Self {
        Self {
            given,
            keys: (0..KEYS).map(|i| format!("key{i}")).collect(),
            cancels,
            out: Vec::with_capacity(4096),
            fed: 0,
            awake: 0,
            sent: 0,
            taken: 0,
        }
    }

    pub fn begin_round(&mut self) {
        (self.fed, self.awake, self.sent, self.taken) = (0, 0, 0, 0);
    }

    pub fn n(&self) -> u32 {
        self.given.n
    }

    pub fn handle(at: u32) -> NotificationHandle {
        (FIRST_HANDLE + at).into()
    }

    /// Makes the VM, feeds what the attempt begins with, and reads the input.
    pub fn begin(&mut self) -> CoreVM {
        let mut options = VMOptions::default();
        if !self.cancels {
            options.implicit_cancellation = ImplicitCancellationOption::Disabled;
        }
        let headers = vec![("content-type".to_owned(), VERSION.to_owned())];
        let mut vm = CoreVM::new(headers, options).unwrap();
        let len = self.given.first.len();
        let cut = if self.given.cut > 0 { self.given.cut } else { len };
        for piece in self.given.first.chunks(cut) {
            vm.notify_input(Bytes::copy_from_slice(piece));
        }
        assert!(vm.is_ready_to_execute().unwrap());
        let input = vm.sys_input().unwrap();
        self.copy(&input.input);
        vm
    }

    fn copy(&mut self, bytes: &[u8]) {
        self.out.clear();
        self.out.extend_from_slice(bytes);
    }

    /// Feeds the next piece.
    pub fn next(&mut self, vm: &mut CoreVM) {
        let from = self.fed.checked_sub(1).map_or(0, |it| self.given.ends[it]);
        let piece = &self.given.rest[from..self.given.ends[self.fed]];
        vm.notify_input(Bytes::copy_from_slice(piece));
        self.fed += 1;
    }

    /// Copies the output.
    pub fn drain(&mut self, vm: &mut CoreVM) {
        let output = vm.take_output();
        self.sent += output.len();
        self.copy(&output);
    }

    pub fn awaits(&mut self, vm: &mut CoreVM, future: UnresolvedFuture) -> AwaitResponse {
        let response = vm.do_await(future).unwrap();
        self.awake += u64::from(response == AwaitResponse::AnyCompleted);
        response
    }

    pub fn take(&mut self, vm: &mut CoreVM, handle: NotificationHandle) {
        match vm.take_notification(handle).unwrap().unwrap() {
            Value::Void => {}
            Value::Success(value) => self.take_bytes(&value),
            Value::InvocationId(id) => self.take_bytes(id.as_bytes()),
            _ => panic!("a result that no case has"),
        }
    }

    fn take_bytes(&mut self, bytes: &[u8]) {
        self.taken += bytes.len();
        self.copy(bytes);
    }

    pub fn await_and_take(&mut self, vm: &mut CoreVM, handle: NotificationHandle) {
        let response = self.awaits(vm, UnresolvedFuture::Single(handle));
        assert_eq!(response, AwaitResponse::AnyCompleted);
        self.take(vm, handle);
    }

    pub fn key(&self, at: u32) -> &str {
        &self.keys[(at % KEYS) as usize]
    }
}

impl Display for Player {
    fn fmt(&self, f: &mut Formatter<'_>) -> fmt::Result {
        let fed = self.given.first.len() + self.given.rest.len();
        let Self {
            awake, sent, taken, ..
        } = self;
        write!(f, "awake={awake} sent={sent} taken={taken} fed={fed}")
    }
}

pub fn nap(vm: &mut CoreVM) -> NotificationHandle {
    vm.sys_sleep(String::new(), Duration::from_millis(1000), None)
        .unwrap()
}

pub fn get(vm: &mut CoreVM, key: &str) -> NotificationHandle {
    vm.sys_state_get(key.to_owned(), None, PayloadOptions::default())
        .unwrap()
}

pub fn set(vm: &mut CoreVM, key: &str, len: usize) {
    let value = Bytes::copy_from_slice(&FILLER[..len]);
    vm.sys_state_set(key.to_owned(), value, None, PayloadOptions::default())
        .unwrap();
}
