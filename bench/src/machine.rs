//! The machine of the run.

/// The first value of a name in /proc/cpuinfo.
fn told<'a>(text: &'a str, name: &str) -> &'a str {
    let of = |line: &'a str| line.split_once(':').filter(|(left, _)| left.trim() == name);
    text.lines().find_map(of).map_or("unknown", |(_, right)| right.trim())
}

/// The processor's model, family and clock, and how many there are.
pub fn name() -> String {
    let text = std::fs::read_to_string("/proc/cpuinfo").unwrap_or_default();
    let count = text.lines().filter(|line| line.starts_with("processor")).count();
    let gigahertz = told(&text, "cpu MHz").parse::<f64>().unwrap_or(0.0) / 1000.0;
    format!(
        "{} (family {}, model {}, {gigahertz:.1} GHz), {count} cores, x86-64 Linux",
        told(&text, "model name"),
        told(&text, "cpu family"),
        told(&text, "model"),
    )
}
