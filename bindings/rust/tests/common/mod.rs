//! What the tests share.

use palqytun::{frames, Options, Vm};

/// A VM of version 7 that has its input.
pub fn begun() -> Vm {
    let mut vm = Vm::new("application/vnd.restate.invocation.v7", &Options::default()).unwrap();
    vm.notify_input(&frames::frame_of(r#"Start id="abc" debug_id="abc" known_entries=1"#).unwrap()).unwrap();
    vm.notify_input(&frames::frame_of(r#"Input value="Till""#).unwrap()).unwrap();
    assert_eq!(vm.sys_input().unwrap().input, b"Till");
    vm
}
