//! A description of the machine.

use std::process::Command;

/// The processor, the number of cores, the kernel and the compiler, one line each.
pub fn description() -> Vec<String> {
    let cpuinfo = std::fs::read_to_string("/proc/cpuinfo").unwrap_or_default();
    let model = cpuinfo
        .lines()
        .find_map(|line| line.strip_prefix("model name"))
        .map_or("unknown", |rest| rest.trim_start_matches([' ', '\t', ':']));
    let cores = std::thread::available_parallelism().map_or(0, usize::from);
    let kernel = std::fs::read_to_string("/proc/sys/kernel/osrelease").unwrap_or_default();
    let compiler = Command::new("rustc")
        .arg("--version")
        .output()
        .map(|output| String::from_utf8_lossy(&output.stdout).trim().to_string())
        .unwrap_or_default();
    vec![
        format!("processor: {model}, {cores} cores"),
        format!("kernel: Linux {}", kernel.trim()),
        format!("compiler of the second planner: {compiler}"),
    ]
}
