//! Reading and writing: Rust's `io`, and in its place buffers whose memory may be refused, and the streams of [`host`](super::host).
use super::memory::{Global, Vec};
use crate::text_set::lines::line_end;
pub use super::host::{IsTerminal, Stderr, Stdin, Stdout};
pub use real_std::io::{Error, ErrorKind, Read, Result, Write};

/// A reader of what a buffer reads ahead.
pub trait BufRead: Read {
    /// Puts what comes up to this byte, and the byte, behind the others, and tells how many bytes these are.
    fn read_until(&mut self, byte: u8, to: &mut Vec<u8>) -> Result<usize>;
}

/// A buffer over a reader. What was read and is not yet taken is `buffer[start..end]`.
pub struct BufReader<R> {
    from: R,
    buffer: Vec<u8>,
    start: usize,
    end: usize,
}

impl<R: Read> BufReader<R> {
    /// One of so many bytes.
    pub fn with_capacity(alloc: Global, capacity: usize, from: R) -> Result<BufReader<R>> {
        Ok(BufReader { from, buffer: Vec::filled(alloc, 0, capacity)?, start: 0, end: 0 })
    }

    /// Reads once, where all was taken.
    fn fill(&mut self) -> Result<()> {
        if self.start == self.end {
            (self.start, self.end) = (0, 0);
            self.end = self.from.read(&mut self.buffer)?;
        }
        Ok(())
    }
}

impl<R: Read> Read for BufReader<R> {
    fn read(&mut self, to: &mut [u8]) -> Result<usize> {
        if self.start == self.end && to.len() >= self.buffer.len() {
            return self.from.read(to);
        }
        self.fill()?;
        let count = to.len().min(self.end - self.start);
        to[..count].copy_from_slice(&self.buffer[self.start..][..count]);
        self.start += count;
        Ok(count)
    }
}

impl<R: Read> BufRead for BufReader<R> {
    fn read_until(&mut self, byte: u8, to: &mut Vec<u8>) -> Result<usize> {
        let mut count = 0;
        loop {
            match self.fill() {
                Err(error) if error.kind() == ErrorKind::Interrupted => continue,
                filled => filled?,
            }
            let read = &self.buffer[self.start..self.end];
            let end = line_end(read, byte);
            let taken = end.map_or(read.len(), |at| at + 1);
            to.extend_from_slice(&read[..taken])?;
            self.start += taken;
            count += taken;
            if end.is_some() || taken == 0 {
                return Ok(count);
            }
        }
    }
}

/// A buffer over a writer. What a failure leaves unwritten stays in it, and is tried once more when it is dropped.
pub struct BufWriter<W: Write> {
    to: W,
    buffer: Vec<u8>,
    capacity: usize,
}

impl<W: Write> BufWriter<W> {
    /// One of so many bytes.
    pub fn with_capacity(alloc: Global, capacity: usize, to: W) -> Result<BufWriter<W>> {
        Ok(BufWriter { to, buffer: Vec::with_capacity(alloc, capacity)?, capacity })
    }

    fn write_out(&mut self) -> Result<()> {
        let mut written = 0;
        let result = loop {
            if written == self.buffer.len() {
                break Ok(());
            }
            match self.to.write(&self.buffer[written..]) {
                Ok(0) => break Err(ErrorKind::WriteZero.into()),
                Ok(count) => written += count,
                Err(error) if error.kind() == ErrorKind::Interrupted => {}
                Err(error) => break Err(error),
            }
        };
        self.buffer.remove_front(written);
        result
    }

    #[cold]
    fn write_with_no_room(&mut self, bytes: &[u8]) -> Result<usize> {
        if bytes.len() >= self.capacity || bytes.len() > self.capacity - self.buffer.len() {
            self.write_out()?;
        }
        if bytes.len() >= self.capacity {
            return self.to.write(bytes);
        }
        self.buffer.extend_from_slice(bytes)?;
        Ok(bytes.len())
    }
}

impl<W: Write> Write for BufWriter<W> {
    #[inline]
    fn write(&mut self, bytes: &[u8]) -> Result<usize> {
        if bytes.len() < self.capacity - self.buffer.len() {
            self.buffer.extend_from_slice(bytes)?;
            return Ok(bytes.len());
        }
        self.write_with_no_room(bytes)
    }

    fn flush(&mut self) -> Result<()> {
        self.write_out()?;
        self.to.flush()
    }
}

impl<W: Write> Drop for BufWriter<W> {
    fn drop(&mut self) {
        let _ = self.write_out();
    }
}
