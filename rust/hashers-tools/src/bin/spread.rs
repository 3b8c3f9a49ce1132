//! The program `spread`: see `hashers_tools::spread`.
fn main() -> std::process::ExitCode {
    hashers_tools::spread::main(hashers_proved::shim::HostRuntime::default())
}
