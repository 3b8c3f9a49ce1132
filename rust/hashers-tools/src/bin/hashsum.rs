//! The program `hashsum`: see `hashers_tools::hashsum`.
fn main() -> std::process::ExitCode {
    hashers_tools::hashsum::main(hashers_proved::shim::HostRuntime::default())
}
