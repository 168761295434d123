//! Usage: calls [CALL TURNS]; `bench/instructions` uses it.

fn main() -> std::process::ExitCode {
    bench::repeat()
}
