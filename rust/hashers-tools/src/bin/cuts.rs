//! The program `cuts`: see `hashers_tools::cuts`.
fn main() -> std::process::ExitCode {
    hashers_tools::cuts::main(hashers_proved::shim::HostRuntime::default())
}
