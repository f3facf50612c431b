//! The wrapper without Rust's standard library: tests/host/bare is compiled, linked and run. It has no allocator, so that it does
//! not link where the wrapper needs one.

use std::path::Path;
use std::process::Command;

#[test]
fn a_host_without_the_standard_library() {
    let package = Path::new(env!("CARGO_MANIFEST_DIR")).join("bare");
    let built_in = Path::new(env!("CARGO_TARGET_TMPDIR")).join("bare");
    let built = Command::new(env!("CARGO"))
        .args(["build", "--release", "--quiet", "--offline", "--target-dir"])
        .arg(&built_in)
        .current_dir(&package)
        .output()
        .expect("cargo");
    assert!(built.status.success(), "{}", String::from_utf8_lossy(&built.stderr));
    let ended = Command::new(built_in.join("release/bare_host")).status().expect("it starts");
    assert_eq!(ended.code(), Some(0), "the first answer that is not as wanted");
}
