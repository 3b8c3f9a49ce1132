//! What a program has of the system: its arguments, streams and files, the clock, random bytes.
use super::memory::Global;
use real_std::ffi::OsString;
use real_std::fmt::Arguments;
use real_std::fs::File;
#[cfg(not(any(unix, target_os = "wasi")))]
use real_std::io::IsTerminal as Described;
use real_std::io::{self, Read, Write};
#[cfg(any(unix, target_os = "wasi"))]
use real_std::os::fd::AsFd as Described;
use real_std::sync::OnceLock;
use real_std::vec::Vec;

/// The system. What it asks for memory, it asks when it is made: where that is refused, Rust's std ends the program.
pub struct HostRuntime {
    arguments: Vec<OsString>,
}

impl Default for HostRuntime {
    fn default() -> HostRuntime {
        let rt = HostRuntime { arguments: real_std::env::args_os().collect() };
        let _ = (rt.stdin(), rt.stdout(), rt.stderr());
        rt
    }
}

impl HostRuntime {
    /// Where memory comes from.
    pub fn alloc(&self) -> Global {
        Global
    }

    /// Standard input.
    pub fn stdin(&self) -> Stdin {
        static BARE: OnceLock<Option<File>> = OnceLock::new();
        stream(&BARE, io::stdin)
    }

    /// Standard output.
    pub fn stdout(&self) -> Stdout {
        static BARE: OnceLock<Option<File>> = OnceLock::new();
        stream(&BARE, io::stdout)
    }

    /// Standard error.
    pub fn stderr(&self) -> Stderr {
        static BARE: OnceLock<Option<File>> = OnceLock::new();
        stream(&BARE, io::stderr)
    }

    /// Writes these on standard error.
    pub fn eprint(&self, words: &str) -> io::Result<()> {
        self.stderr().write_all(words.as_bytes())
    }

    /// Writes these on standard error, at once.
    pub fn eprint_words(&self, words: Arguments) -> io::Result<()> {
        self.eprint(super::memory::formatted(Global, words)?.as_str())
    }
}

/// A standard stream. Rust's own has a buffer, and hides where it cannot be read or written at all. So a file stands for it, by another
/// descriptor of the same; where there is none, it is Rust's own.
pub enum Stream<S> {
    Bare(&'static File),
    Own(S),
}

pub type Stdin = Stream<io::Stdin>;
pub type Stdout = Stream<io::Stdout>;
pub type Stderr = Stream<io::Stderr>;

fn stream<S: Described>(bare: &'static OnceLock<Option<File>>, own: fn() -> S) -> Stream<S> {
    match bare.get_or_init(|| file_of(own())) {
        Some(file) => Stream::Bare(file),
        None => Stream::Own(own()),
    }
}

#[cfg(any(unix, target_os = "wasi"))]
fn file_of<S: Described>(own: S) -> Option<File> {
    Some(own.as_fd().try_clone_to_owned().ok()?.into())
}

#[cfg(not(any(unix, target_os = "wasi")))]
fn file_of<S: Described>(_: S) -> Option<File> {
    None
}

impl<S: Read> Read for Stream<S> {
    #[inline]
    fn read(&mut self, to: &mut [u8]) -> io::Result<usize> {
        match self {
            Stream::Bare(file) => file.read(to),
            Stream::Own(own) => own.read(to),
        }
    }
}

impl<S: Write> Write for Stream<S> {
    #[inline]
    fn write(&mut self, bytes: &[u8]) -> io::Result<usize> {
        match self {
            Stream::Bare(file) => file.write(bytes),
            Stream::Own(own) => own.write(bytes),
        }
    }

    fn flush(&mut self) -> io::Result<()> {
        match self {
            Stream::Bare(file) => file.flush(),
            Stream::Own(own) => own.flush(),
        }
    }
}

/// Rust's own is for its own types alone.
pub trait IsTerminal {
    /// Whether somebody sits before it.
    fn is_terminal(&self) -> bool;
}

impl<S: io::IsTerminal> IsTerminal for Stream<S> {
    fn is_terminal(&self) -> bool {
        match self {
            Stream::Bare(file) => io::IsTerminal::is_terminal(*file),
            Stream::Own(own) => io::IsTerminal::is_terminal(own),
        }
    }
}

pub mod env {
    use super::{HostRuntime, Vec};
    use crate::shim::String;
    use real_std::io;
    use real_std::vec::IntoIter;

    /// Why an argument is not there.
    pub enum FillError {
        NotPresent,
        TooLong,
    }

    pub trait Env {
        /// Puts the argument at that place to the front of the room, and tells its length.
        fn arg(&self, place: usize, room: &mut [u8]) -> Result<usize, FillError>;
    }

    impl Env for HostRuntime {
        fn arg(&self, place: usize, room: &mut [u8]) -> Result<usize, FillError> {
            let bytes = self.arguments.get(place).ok_or(FillError::NotPresent)?.as_encoded_bytes();
            let room = room.get_mut(..bytes.len()).ok_or(FillError::TooLong)?;
            room.copy_from_slice(bytes);
            Ok(bytes.len())
        }
    }

    pub type Args = IntoIter<String>;

    /// The arguments, if they are UTF-8.
    pub fn args(rt: &HostRuntime) -> io::Result<Args> {
        let mut all = Vec::new();
        all.try_reserve_exact(rt.arguments.len()).map_err(|_| io::ErrorKind::OutOfMemory)?;
        for argument in &rt.arguments {
            let text = argument.to_str().ok_or(io::ErrorKind::InvalidData)?;
            all.push(String::from_str(rt.alloc(), text)?);
        }
        Ok(all.into_iter())
    }
}

pub mod fs {
    use super::HostRuntime;
    use real_std::fs;
    use real_std::io::{Read, Result, Write};

    pub struct File(fs::File);

    impl File {
        pub fn open(_rt: &HostRuntime, path: &str) -> Result<File> {
            Ok(File(fs::File::open(path)?))
        }

        pub fn metadata(&self) -> Result<fs::Metadata> {
            self.0.metadata()
        }

        pub fn set_len(&self, len: u64) -> Result<()> {
            self.0.set_len(len)
        }
    }

    impl Read for File {
        fn read(&mut self, to: &mut [u8]) -> Result<usize> {
            self.0.read(to)
        }
    }

    impl Write for File {
        fn write(&mut self, bytes: &[u8]) -> Result<usize> {
            self.0.write(bytes)
        }

        fn flush(&mut self) -> Result<()> {
            self.0.flush()
        }
    }

    pub struct OpenOptions(fs::OpenOptions);

    impl OpenOptions {
        #[allow(clippy::new_without_default)]
        pub fn new() -> OpenOptions {
            OpenOptions(fs::OpenOptions::new())
        }

        pub fn write(&mut self, is: bool) -> &mut OpenOptions {
            self.0.write(is);
            self
        }

        pub fn create(&mut self, is: bool) -> &mut OpenOptions {
            self.0.create(is);
            self
        }

        pub fn open(&self, _rt: &HostRuntime, path: &str) -> Result<File> {
            Ok(File(self.0.open(path)?))
        }
    }
}

pub mod random {
    use super::HostRuntime;
    use real_std::hash::{BuildHasher, Hasher, RandomState};
    use real_std::io::Result;

    pub trait RandomSource {
        /// Fills the room with random bytes.
        fn fill_bytes(&self, room: &mut [u8]) -> Result<()>;
    }

    /// Rust's std gives no random bytes but the keys of its maps: these are hashes under such keys.
    impl RandomSource for HostRuntime {
        fn fill_bytes(&self, room: &mut [u8]) -> Result<()> {
            for piece in room.chunks_mut(8) {
                let number = RandomState::new().build_hasher().finish().to_le_bytes();
                piece.copy_from_slice(&number[..piece.len()]);
            }
            Ok(())
        }
    }
}

pub mod time {
    use super::HostRuntime;
    use real_std::io::Result;
    use real_std::time;

    #[derive(Clone, Copy)]
    pub struct Instant(time::Instant);

    impl Instant {
        pub fn now(_rt: &HostRuntime) -> Result<Instant> {
            Ok(Instant(time::Instant::now()))
        }

        pub fn elapsed(&self, _rt: &HostRuntime) -> Result<time::Duration> {
            Ok(self.0.elapsed())
        }
    }
}
