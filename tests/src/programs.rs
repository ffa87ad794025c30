//! The proved programs, and how they are fed.

use std::ffi::OsString;
use std::io::Write;
use std::os::raw::{c_int, c_ulong};
use std::os::unix::io::AsRawFd;
use std::path::Path;
use std::process::{ChildStdin, Command, Output, Stdio};
use std::sync::atomic::{AtomicBool, Ordering};
use std::{env, thread};

/// The program of this name that `rt check` has built; `DOLJURVEN_NAME` in the environment names another one.
pub fn built(name: &str) -> OsString {
    let path = || Path::new(env!("CARGO_MANIFEST_DIR")).join("../target/bin").join(name).into_os_string();
    let program = env::var_os(format!("DOLJURVEN_{}", name.to_uppercase())).unwrap_or_else(path);
    assert!(Path::new(&program).exists(), "{} is not there: run `rt check {name}` first", program.to_string_lossy());
    program
}

extern "C" {
    fn ioctl(file: c_int, request: c_ulong, ...) -> c_int;
}

/// Bytes in the pipe that the program has not read yet.
fn unread(pipe: &ChildStdin) -> c_int {
    const FIONREAD: c_ulong = 0x541B;
    let mut unread: c_int = 0;
    let told = unsafe { ioctl(pipe.as_raw_fd(), FIONREAD, &mut unread) };
    assert_eq!(told, 0, "a pipe tells what is in it");
    unread
}

/// Runs a program with these pieces on its standard input. Each is read before the next is written, so that it meets
/// every cut; one that ends before it has read all is no fault.
pub fn fed(command: &mut Command, pieces: &[&[u8]]) -> Output {
    command.stdin(Stdio::piped()).stdout(Stdio::piped()).stderr(Stdio::piped());
    let mut child = command.spawn().expect("the program runs");
    let mut input = child.stdin.take().expect("a pipe");
    let ended = AtomicBool::new(false);
    let ended = &ended;
    thread::scope(|scope| {
        scope.spawn(move || {
            for piece in pieces {
                if input.write_all(piece).is_err() {
                    return;
                }
                while unread(&input) > 0 && !ended.load(Ordering::Relaxed) {
                    thread::yield_now();
                }
            }
        });
        let output = child.wait_with_output().expect("the program ends");
        ended.store(true, Ordering::Relaxed);
        output
    })
}
