//! Stands in for the crate bytes-utils, which Debian 12 doesn't have: a queue of buffers that is read as one. Bytes of one buffer are lent and
//! not copied, as there.

use bytes::{Buf, BufMut, Bytes, BytesMut};
use std::collections::VecDeque;

#[derive(Debug, Clone)]
pub struct SegmentedBuf<B> {
    queue: VecDeque<B>,
    len: usize,
}

impl<B> Default for SegmentedBuf<B> {
    fn default() -> Self {
        Self {
            queue: VecDeque::new(),
            len: 0,
        }
    }
}

impl<B: Buf> SegmentedBuf<B> {
    /// Adds a buffer at the end, unless it is empty.
    pub fn push(&mut self, buffer: B) {
        if buffer.has_remaining() {
            self.len += buffer.remaining();
            self.queue.push_back(buffer);
        }
    }

    /// Drops the first buffer if it was read.
    fn drop_read(&mut self) {
        if self.queue.front().is_some_and(|it| !it.has_remaining()) {
            self.queue.pop_front();
        }
    }
}

impl<B: Buf> Buf for SegmentedBuf<B> {
    fn remaining(&self) -> usize {
        self.len
    }

    fn chunk(&self) -> &[u8] {
        self.queue.front().map_or(&[], Buf::chunk)
    }

    fn advance(&mut self, mut count: usize) {
        self.len = self.len.checked_sub(count).expect("that many bytes");
        while count > 0 {
            let front = self.queue.front_mut().expect("a buffer");
            let step = count.min(front.remaining());
            front.advance(step);
            count -= step;
            self.drop_read();
        }
    }

    fn copy_to_bytes(&mut self, len: usize) -> Bytes {
        match self.queue.front_mut() {
            Some(front) if len <= front.remaining() => {
                let bytes = front.copy_to_bytes(len);
                self.len -= len;
                self.drop_read();
                bytes
            }
            _ => {
                let mut bytes = BytesMut::with_capacity(len);
                bytes.put(self.take(len));
                bytes.freeze()
            }
        }
    }
}
