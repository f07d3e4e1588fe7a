//! A hundred thousand VMs and journals are opened and closed, and memory doesn't grow.

mod common;

use common::begun;
use palqytun::Journal;
use std::fs;

const MOST_PAGES: usize = 1024; // 4 MB: a VM that stays would take more than 1 kB

fn resident_pages() -> usize {
    let text = fs::read_to_string("/proc/self/statm").expect("Linux");
    text.split_whitespace().nth(1).and_then(|it| it.parse().ok()).expect("a number")
}

fn open_and_close(many: usize) {
    for _ in 0..many {
        drop(begun());
        drop(Journal::new().unwrap());
    }
}

#[test]
fn memory_does_not_grow() {
    open_and_close(1_000);
    let before = resident_pages();
    open_and_close(100_000);
    let grown = resident_pages().saturating_sub(before);
    assert!(grown < MOST_PAGES, "{} pages more", grown);
}
