//! Links the proved archive, `libsplicereel_c.a`, which `make lib` writes.

use std::path::{Path, PathBuf};
use std::process::ExitCode;

const ARCHIVE: &str = "libsplicereel_c.a";

fn main() -> ExitCode {
    println!("cargo:rerun-if-env-changed=SPLICEREEL_LIB");
    let directory = std::env::var_os("SPLICEREEL_LIB").map_or_else(
        || PathBuf::from(env!("CARGO_MANIFEST_DIR")).join("../../target/staticlib"),
        PathBuf::from,
    );
    let archive = directory.join(ARCHIVE);
    println!("cargo:rerun-if-changed={}", archive.display());
    if let Err(words) = serves(&archive) {
        eprintln!("splicereel-sys: {words}");
        return ExitCode::FAILURE;
    }
    println!("cargo:rustc-link-search=native={}", directory.display());
    println!("cargo:rustc-link-lib=static=splicereel_c");
    ExitCode::SUCCESS
}

/// Whether the archive is there and is for the target; otherwise what to do.
fn serves(archive: &Path) -> Result<(), String> {
    let bytes = std::fs::read(archive).map_err(|error| {
        format!(
            "the archive {} cannot be read ({error}).\nWrite it with `make lib` at the root of the repository, or name its directory in the \
             environment variable SPLICEREEL_LIB.",
            archive.display()
        )
    })?;
    let variable = |name: &str| std::env::var(name).unwrap_or_default();
    let target = variable("CARGO_CFG_TARGET_ARCH");
    let (wanted, system) = (machine(&target), variable("CARGO_CFG_TARGET_OS"));
    match elf_machine(&bytes) {
        Some(found) if Some(found) == wanted && system == "linux" => Ok(()),
        Some(found) => Err(format!(
            "the archive {} holds ELF code for {}, and the target is {target} on {system}.\nBuild for x86_64-unknown-linux-gnu, or name the directory of \
             another archive in SPLICEREEL_LIB.",
            archive.display(),
            machine_name(found),
        )),
        None => Err(format!(
            "{} is no archive of ELF code: write it anew with `make lib`.",
            archive.display()
        )),
    }
}

/// ELF's machines, by the names that Rust gives the architectures.
const MACHINES: [(&str, u16); 5] = [
    ("x86", 3),
    ("arm", 40),
    ("x86_64", 62),
    ("aarch64", 183),
    ("riscv64", 243),
];

fn machine(architecture: &str) -> Option<u16> {
    let known = MACHINES.iter().find(|(name, _)| *name == architecture);
    known.map(|(_, number)| *number)
}

fn machine_name(number: u16) -> String {
    let known = MACHINES.iter().find(|(_, other)| *other == number);
    known.map_or_else(
        || format!("machine {number}"),
        |(name, _)| (*name).to_string(),
    )
}

/// The machine of an archive's first member that is ELF code.
fn elf_machine(archive: &[u8]) -> Option<u16> {
    let mut rest = archive.strip_prefix(b"!<arch>\n")?;
    while let Some((head, after)) = rest.split_at_checked(60) {
        let size = std::str::from_utf8(&head[48..58]).ok()?;
        let size: usize = size.trim().parse().ok()?;
        let member = after.get(..size)?;
        if member.starts_with(b"\x7FELF") {
            return Some(u16::from_le_bytes([*member.get(18)?, *member.get(19)?]));
        }
        // Members begin at even places.
        rest = after.get(size + size % 2..)?;
    }
    None
}
