//! The computer: what /proc says of it.

use std::fmt;
use std::process::Command;

pub struct Machine {
    processor: String,
    processors: usize,
    rustc: String,
}

impl Machine {
    pub fn of() -> Self {
        let info = std::fs::read_to_string("/proc/cpuinfo").unwrap_or_default();
        let model = info.lines().find_map(|line| line.strip_prefix("model name")?.split_once(':'));
        let rustc = Command::new("rustc").arg("--version").output().ok().and_then(|output| String::from_utf8(output.stdout).ok());
        Self {
            processor: model.map_or("processor unknown", |(_, name)| name.trim()).to_string(),
            processors: std::thread::available_parallelism().map_or(1, |count| count.get()),
            rustc: rustc.map_or("rustc not at hand".to_string(), |version| version.trim().to_string()),
        }
    }

    pub fn rustc(&self) -> &str {
        &self.rustc
    }
}

impl fmt::Display for Machine {
    fn fmt(&self, f: &mut fmt::Formatter) -> fmt::Result {
        let plural = if self.processors == 1 { "" } else { "s" };
        write!(f, "{}, {} processor{plural}", self.processor, self.processors)
    }
}

/// The load average of the last 1, 5 and 15 minutes.
pub fn load() -> String {
    let text = std::fs::read_to_string("/proc/loadavg").unwrap_or_default();
    let load: Vec<&str> = text.split_whitespace().take(3).collect();
    if load.is_empty() { "unknown".to_string() } else { load.join(", ") }
}
