//! What a measurement depends on besides the code: the processor, and what else it does.

use std::fs::read_to_string;

/// The processor's name.
pub fn processor() -> String {
    let name = |text: String| {
        let line = text.lines().find(|line| line.starts_with("model name"))?;
        Some(line.split_once(':')?.1.trim().to_string())
    };
    read_to_string("/proc/cpuinfo").ok().and_then(name).unwrap_or("unknown processor".into())
}

/// How many programs wanted to run, of late: the averages of 1, 5 and 15 minutes.
pub fn load() -> String {
    read_to_string("/proc/loadavg")
        .map_or("unknown".into(), |line| line.split(' ').take(3).collect::<Vec<_>>().join(" "))
}
