//! Prints what the numbers were measured on.

use std::fs::read_to_string;

pub fn print() {
    let cpu = read_to_string("/proc/cpuinfo").unwrap_or_default();
    let model = cpu.lines().find_map(|line| line.strip_prefix("model name")).unwrap_or(": unknown");
    let cores = std::thread::available_parallelism().map_or(0, |cores| cores.get());
    let kernel = read_to_string("/proc/sys/kernel/osrelease").unwrap_or_default();
    println!("- CPU: {}", model.trim_start_matches([' ', '\t', ':']));
    println!("- cores: {cores}");
    println!("- kernel: {}", kernel.trim());
    println!("- compiler of the reference: {}", env!("BENCH_RUSTC"));
}
