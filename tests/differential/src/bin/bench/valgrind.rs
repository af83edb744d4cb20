//! Valgrind: what it is asked by a program that runs under it, and how this program starts itself
//! under one of its tools.

#![allow(unsafe_code)]

use std::arch::asm;
use std::ffi::OsStr;
use std::process::Command;
use std::{env, io};

/// A request that every tool answers, by its number in valgrind's header.
const RUNNING_ON_VALGRIND: usize = 0x1001;

/// Asks valgrind for something; 0 where the program does not run under it.
pub fn request(number: usize, argument: usize) -> usize {
    let arguments = [number, argument, 0, 0, 0, 0];
    let mut answer = 0;
    // SAFETY: by itself the sequence turns rdi once around and changes nothing but the flags;
    // valgrind knows it, reads the arguments and writes the answer.
    unsafe {
        asm!(
            "rol rdi, 3",
            "rol rdi, 13",
            "rol rdi, 61",
            "rol rdi, 51",
            "xchg rbx, rbx",
            in("rax") arguments.as_ptr(),
            inout("rdx") answer,
            options(nostack),
        );
    }
    answer
}

pub fn is_running_on_valgrind() -> bool {
    request(RUNNING_ON_VALGRIND, 0) != 0
}

/// This program with its own arguments, under valgrind with these options.
pub fn this_program_under(options: &[impl AsRef<OsStr>]) -> io::Result<Command> {
    let mut command = Command::new("valgrind");
    command
        .arg("--quiet")
        .args(options)
        .arg(env::current_exe()?)
        .args(env::args_os().skip(1));
    Ok(command)
}

/// The error of a command that does not start.
pub fn missing(error: io::Error) -> io::Error {
    io::Error::other(format!("valgrind does not start: {error}"))
}

#[cfg(test)]
mod tests {
    use super::*;

    /// Outside valgrind a request is no more than a few turns.
    #[test]
    fn a_request_is_answered_by_nobody() {
        assert!(!is_running_on_valgrind());
    }
}
