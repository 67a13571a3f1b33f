//! The page docs/PERFORMANCE.md.

use std::fs;
use std::process::Command;

use crate::print_tables;

/// The page's texts, with a line in braces for each part that is worked out.
const PAGE: &str = include_str!("../page.md");

/// memcpy does not write past the caches, and malloc keeps its memory.
const TUNABLES: &str = "glibc.cpu.x86_non_temporal_threshold=0x40000000:\
                        glibc.malloc.mmap_threshold=0x40000000:glibc.malloc.trim_threshold=0x40000000";

/// What a command prints, without the end of its last line.
fn said(program: &str, arguments: &[&str]) -> String {
    let output = Command::new(program).args(arguments).output().unwrap_or_else(|e| panic!("{program}: {e}"));
    String::from_utf8_lossy(&output.stdout).trim_end().to_string()
}

/// What stands after the colon in the first line of a file that starts with a name.
fn field(file: &str, name: &str) -> String {
    let text = fs::read_to_string(file).unwrap_or_else(|e| panic!("{file}: {e}"));
    let line = text.lines().find(|line| line.starts_with(name)).unwrap_or_default();
    line.split_once(':').map_or("unknown", |(_, value)| value.trim()).to_string()
}

/// The first words of a text.
fn words(text: &str, count: usize) -> String {
    text.split_whitespace().take(count).collect::<Vec<_>>().join(" ")
}

/// The bytes from which on memcpy writes past the caches.
fn threshold() -> String {
    let tunables = said("/lib64/ld-linux-x86-64.so.2", &["--list-tunables"]);
    let line = tunables.lines().find(|line| line.contains("x86_non_temporal_threshold")).unwrap_or_default();
    let number = line.split_whitespace().nth(1).and_then(|word| word.strip_prefix("0x"));
    let bytes = number.and_then(|digits| u64::from_str_radix(digits, 16).ok());
    bytes.map_or("unknown".into(), |bytes| bytes.to_string())
}

fn print_machine() {
    let cores = std::thread::available_parallelism().map_or(1, usize::from);
    let (cpu, cache) = (field("/proc/cpuinfo", "model name"), field("/proc/cpuinfo", "cache size"));
    let kilobytes: f64 = words(&field("/proc/meminfo", "MemTotal"), 1).parse().unwrap_or_default();
    let load = words(&fs::read_to_string("/proc/loadavg").unwrap_or_default(), 3);
    let (rustc, kit) = (words(&said("rustc", &["--version"]), 2), said("rt", &["version"]));
    let (glibc, threshold) = (said("getconf", &["GNU_LIBC_VERSION"]), threshold());
    println!("| | |\n|---|---|");
    println!("| Date | {} |", said("date", &["-u", "+%F"]));
    println!("| CPU | {cpu}, {cores} cores, cache {cache} |");
    println!("| Memory | {:.1} GB |", kilobytes * 1024.0 / 1e9);
    println!("| Load average before the run | {load} |");
    println!("| Compilers | {rustc}, {kit} |");
    println!("| C library | {glibc}; memcpy writes past the caches from {threshold} bytes on |");
    println!("| Command | `OSML_SRC=/absolute/path/of/the/supplied/sources bench/run` |");
}

/// The rows of more than 32 MB, from a process of its own.
fn print_large() {
    let program = std::env::current_exe().expect("the program's own file");
    let status = Command::new(program).arg("--large").env("GLIBC_TUNABLES", TUNABLES).status();
    assert!(status.is_ok_and(|status| status.success()), "the large rows failed");
}

pub fn print() {
    for line in PAGE.lines() {
        match line {
            "{machine}" => print_machine(),
            "{times}" => print_tables(&[]),
            "{large}" => print_large(),
            _ => println!("{}", line.replace("{tunables}", &format!("GLIBC_TUNABLES={TUNABLES}"))),
        }
    }
}
