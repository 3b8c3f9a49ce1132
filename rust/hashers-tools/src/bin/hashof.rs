//! The program `hashof`: see `hashers_tools::hashof`.
fn main() -> std::process::ExitCode {
    hashers_tools::hashof::main(hashers_proved::shim::HostRuntime::default())
}
