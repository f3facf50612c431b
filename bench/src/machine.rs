//! The machine's kind, for whoever reads the times.

use std::fs::read_to_string;
use std::process::Command;

/// As `aarch64, Neoverse-V1, 2 processors`.
pub fn kind() -> String {
    let processors = std::thread::available_parallelism().map_or(1, usize::from);
    let model = model().unwrap_or_else(|| "a model that does not say its name".to_string());
    format!("{}, {model}, {processors} processors", std::env::consts::ARCH)
}

/// On x86-64 the kernel says it; on Arm `lscpu` knows it by the part's number.
fn model() -> Option<String> {
    let kernel = read_to_string("/proc/cpuinfo").unwrap_or_default();
    field(&kernel, "model name").or_else(|| {
        let listed = Command::new("lscpu").output().ok()?;
        field(&String::from_utf8_lossy(&listed.stdout), "Model name")
    })
}

fn field(text: &str, name: &str) -> Option<String> {
    let line = text.lines().find(|line| line.trim_start().starts_with(name))?;
    Some(line.split_once(':')?.1.trim().to_string())
}
