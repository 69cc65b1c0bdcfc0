//! What a run was made on and with.

use std::fs;
use std::process::Command;
use std::thread;

/// Lines of a Markdown list: processor, system, compilers and day.
pub fn described() -> String {
    let cores = thread::available_parallelism().map_or("an unknown number of".to_string(), |n| n.to_string());
    [
        format!("- processor: {}, {cores} cores", processor()),
        format!("- system: {}, {}", system(), said_by("uname", &["-srm"])),
        format!(
            "- compilers: {} for the Rust and the host; {} for ours",
            said_by("rustc", &["--version"]),
            said_by("rt", &["version"])
        ),
        format!("- day: {}", said_by("date", &["-u", "+%Y-%m-%d"])),
    ]
    .join("\n")
}

/// The first line that a command prints.
fn said_by(command: &str, words: &[&str]) -> String {
    let output = Command::new(command).args(words).output();
    let said = output.map(|output| String::from_utf8_lossy(&output.stdout).into_owned()).unwrap_or_default();
    match said.lines().next() {
        Some(line) if !line.is_empty() => line.to_string(),
        _ => format!("unknown ({command} says nothing)"),
    }
}

/// Arm has no model in /proc/cpuinfo, and not every system has lscpu.
fn processor() -> String {
    let lscpu = Command::new("lscpu").env("LC_ALL", "C").output();
    let lscpu = lscpu.map(|output| String::from_utf8_lossy(&output.stdout).into_owned()).unwrap_or_default();
    let cpuinfo = fs::read_to_string("/proc/cpuinfo").unwrap_or_default();
    let model = value_of(&lscpu, "Model name", ':').or_else(|| value_of(&cpuinfo, "model name", ':'));
    model.unwrap_or_else(|| "unknown".to_string())
}

fn system() -> String {
    let release = fs::read_to_string("/etc/os-release").unwrap_or_default();
    value_of(&release, "PRETTY_NAME", '=').unwrap_or_else(|| "unknown".to_string())
}

/// The value in the first line that begins with a name.
fn value_of(text: &str, name: &str, sign: char) -> Option<String> {
    let line = text.lines().find(|line| line.starts_with(name))?;
    let value = line.split_once(sign)?.1.trim().trim_matches('"');
    Some(value.to_string()).filter(|value| !value.is_empty())
}
