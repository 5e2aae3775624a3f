//! Of the kit what `growth` uses: the runtime that a program is given, and printing by it, one write for each call, as there.

use std::fs::File;
use std::io::{self, Write};
use std::mem::ManuallyDrop;
use std::os::fd::FromRawFd;

pub struct HostRuntime;

pub trait Print {
    fn write_all(&self, bytes: &[u8]) -> io::Result<()>;
}

impl Print for HostRuntime {
    fn write_all(&self, bytes: &[u8]) -> io::Result<()> {
        // A file that is dropped closes its descriptor.
        let mut file = ManuallyDrop::new(unsafe { File::from_raw_fd(1) });
        file.write_all(bytes)
    }
}

#[macro_export]
macro_rules! print {
    ($rt:expr; $($text:tt)*) => { $rt.write_all(format!($($text)*).as_bytes()) };
}

#[macro_export]
macro_rules! println {
    ($rt:expr) => { $rt.write_all(b"\n") };
    ($rt:expr; $($text:tt)*) => { $rt.write_all((format!($($text)*) + "\n").as_bytes()) };
}
