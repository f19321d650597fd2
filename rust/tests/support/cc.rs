//! C programs, compiled against the header and the library.

use super::files::repository;
use std::path::{Path, PathBuf};
use std::process::Command;

/// C99, and a warning is an error.
const FLAGS: [&str; 7] =
    ["-std=c99", "-pedantic", "-Wall", "-Wextra", "-Wconversion", "-Wshadow", "-Werror"];

/// Compiles a C file of the repository and links the library, with the compiler `CC` or else `cc`.
/// The program, under the name given, or what the compiler says.
pub fn compile(source: &str, name: &str, flags: &[&str]) -> Result<PathBuf, String> {
    let program = Path::new(env!("CARGO_TARGET_TMPDIR")).join(name);
    let compiler = std::env::var_os("CC").unwrap_or("cc".into());
    let ended = Command::new(compiler)
        .args(FLAGS)
        .args(flags)
        .arg("-I")
        .arg(repository("include"))
        .arg(repository(source))
        .arg(repository("target/staticlib/liblihambozy.a"))
        .arg("-o")
        .arg(&program)
        .output()
        .expect("a C compiler runs");
    match ended.status.success() {
        true => Ok(program),
        false => Err(String::from_utf8_lossy(&ended.stderr).into_owned()),
    }
}
