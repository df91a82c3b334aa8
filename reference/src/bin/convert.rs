//! The program `convert`: packets from standard input, in the edition asked for on standard output.
//!
//! It ends with status 0 whatever happens, wrong arguments too: the proved program's `main` cannot
//! return another, and the two must do the same. What happened stands on standard error.

use std::ffi::OsString;
use std::io::{stderr, stdin, stdout};

fn main() {
    let arguments: Vec<OsString> = std::env::args_os().skip(1).collect();
    reference::archive::program(&arguments, &mut stdin().lock(), &mut stdout().lock(), &mut stderr());
}
