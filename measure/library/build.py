"""Builds what is measured: our crates by make and rt, and the drivers, which stand in measure/drivers, by cargo or gcc."""
import os
import shlex
import shutil
import subprocess
import sys

from library.names import ROOT, rows_of_original

DRIVERS = os.path.join(ROOT, "measure", "drivers")
TARGET = os.path.join(ROOT, "measure", "target")


def say(words):
    """Progress, on standard error."""
    print(words, file=sys.stderr, flush=True)


def need(command, package):
    """Ends where there is no such command."""
    if shutil.which(command) is None:
        sys.exit(f"the command {command} is not on the PATH: Debian's package {package} has it")


def done(command, folder=ROOT, wants="", **environment):
    """Runs a command that is to end well, and ends with what it said where it does not, and with the packages that it wants."""
    told = subprocess.run(command, cwd=folder, env={**os.environ, **environment}, stdin=subprocess.DEVNULL,
                          stdout=subprocess.PIPE, stderr=subprocess.STDOUT, text=True, check=False)
    if told.returncode:
        packages = f"; it needs Debian's {wants}" if wants else ""
        sys.exit(f"{told.stdout}\n{shlex.join(command)} ended with {told.returncode}{packages}")
    return told.stdout


def built(*command, folder=ROOT):
    """Runs a command that builds, and tells its progress itself."""
    if subprocess.run(command, cwd=folder, stdin=subprocess.DEVNULL, stdout=sys.stderr, check=False).returncode:
        sys.exit(f"{shlex.join(command)} did not build it")


def program(crate):
    """Proves and builds one of our programs, and answers its path."""
    built("make", crate)
    return os.path.join(ROOT, "bin", crate)


def libhashers(target="", *goals):
    """Builds libhashers, the calls from C, for that target, else for x86-64 by the kit, or by cargo where there is none. Answers its folder."""
    target = target or ("x86-64" if shutil.which("rt") else "plain")
    built("make", "-s", "-C", "c", f"TARGET={target}", "all", *goals)
    return os.path.join(ROOT, "c", "target", target)


def original():
    """The folder with the sources of the Rust crate hashers 1.0.1, which ORIGINAL names."""
    folder = os.environ.get("ORIGINAL", "")
    if not os.path.isfile(os.path.join(folder, "Cargo.toml")):
        sys.exit("ORIGINAL=FOLDER names the folder with the Rust crate hashers 1.0.1: its Cargo.toml, its src, and .cargo/config.toml\n"
                 "where its dependencies are to be taken from a folder")
    return os.path.abspath(folder)


# a macro in Rust that hands another one each row
HANDS_ON = "macro_rules! with_names { ($then:ident) => { $then! { %s} } }\n"


def file_of_names():
    """A file with a macro in Rust that has each row of rows_of_original."""
    text = HANDS_ON % "".join("%s %s %d\n" % row for row in rows_of_original())
    path = os.path.join(TARGET, "names.rs")
    os.makedirs(TARGET, exist_ok=True)
    # what cargo built stays where the names are as they were
    with open(path, "a+", encoding="utf-8") as file:
        file.seek(0)
        if file.read() != text:
            file.truncate(0)
            file.write(text)
    return path


def by_cargo(driver, *words, target="", wants="", **environment):
    """Has cargo build a driver, and answers the folder of what it built."""
    need("cargo", "cargo")
    folder, target = os.path.join(DRIVERS, driver), os.path.join(TARGET, target or driver)
    done(["cargo", "build", "--quiet", "--release", "--target-dir", target, *words], folder, wants=wants, **environment)
    os.remove(os.path.join(folder, "Cargo.lock"))
    return os.path.join(target, "release")


def over_original(driver, **environment):
    """The same over the original crate."""
    crate = original()
    words, config = ["--config", f'patch.crates-io.hashers.path="{crate}"'], os.path.join(crate, ".cargo", "config.toml")
    if os.path.isfile(config):
        words += ["--offline", "--config", config]
    return by_cargo(driver, *words, target="original", HASHER_NAMES=file_of_names(), **environment)


# where Debian's packages of crates lie
CRATES = "/usr/share/cargo/registry"


def over_debian(driver):
    """Has cargo build a driver over crates of Debian's packages, and answers its path."""
    words = ["--offline", "--config", 'source.crates-io.replace-with="debian"', "--config", f'source.debian.directory="{CRATES}"']
    return os.path.join(by_cargo(driver, *words, wants="librust-fnv-dev and librust-fxhash-dev"), driver)


def by_rustc(source):
    """Has rustc build a driver in Rust that needs no crate, and answers its path."""
    need("rustc", "rustc")
    os.makedirs(TARGET, exist_ok=True)
    made = os.path.join(TARGET, os.path.splitext(source)[0])
    done(["rustc", "-O", "--edition", "2021", "-o", made, os.path.join(DRIVERS, source)])
    return made


def by_gcc(source, *words, wants):
    """Has gcc build a driver in C, which wants these packages, and answers its path."""
    need("gcc", "gcc")
    os.makedirs(TARGET, exist_ok=True)
    made = os.path.join(TARGET, os.path.splitext(os.path.basename(source))[0])
    done(["gcc", "-std=gnu11", "-Wall", "-Wextra", "-o", made, os.path.join(DRIVERS, source), *words], wants=wants)
    return made
