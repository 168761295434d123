//! Usage: bench [FOLDER]..., where fonts are looked for; the machine's own without one.

fn main() -> std::process::ExitCode {
    bench::run(None)
}
