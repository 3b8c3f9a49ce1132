//! The program `dedup`: see `hashers_tools::dedup`.
fn main() -> std::process::ExitCode {
    hashers_tools::dedup::main(hashers_proved::shim::HostRuntime::default())
}
