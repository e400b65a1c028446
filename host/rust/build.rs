//! Finds the archive: the file that SKVORZHAN_ARCHIVE names, or what `host/archive` leaves in the repository. Where SKVORZHAN_BEFORE names
//! an archive from before a change, with the same calls and structs but for the controller's end and the transactions' arrivals, that is linked too,
//! each of its calls with `before_` in front of its name.

use std::env;
use std::path::{Path, PathBuf};
use std::process::Command;

fn found(archive: PathBuf) -> PathBuf {
    archive.canonicalize().unwrap_or_else(|e| {
        panic!(
            "no archive at {}: {e}; `host/archive` makes it, or SKVORZHAN_ARCHIVE names another",
            archive.display()
        )
    })
}

fn main() {
    // Cargo looks at a file's time alone: `host/run` gives the archives' sums, so that an older one in its place is seen too.
    for name in ["ARCHIVE", "SUM", "BEFORE", "SUM_BEFORE", "OBJCOPY"] {
        println!("cargo:rerun-if-env-changed=SKVORZHAN_{name}");
    }
    let archive = match env::var_os("SKVORZHAN_ARCHIVE") {
        Some(file) => PathBuf::from(file),
        None => Path::new(&env::var_os("CARGO_MANIFEST_DIR").expect("cargo sets it"))
            .join("../../target/staticlib/libhost.a"),
    };
    let archive = found(archive);
    let name = archive
        .file_name()
        .and_then(|name| name.to_str())
        .and_then(|name| name.strip_prefix("lib")?.strip_suffix(".a"))
        .expect("an archive is named libNAME.a");
    let folder = archive.parent().expect("a file stands in a folder");
    println!("cargo:rerun-if-changed={}", archive.display());
    println!("cargo:rustc-link-search=native={}", folder.display());
    println!("cargo:rustc-link-lib=static={name}");
    let before = env::var_os("SKVORZHAN_BEFORE").filter(|file| !file.is_empty());
    if let Some(before) = before {
        rename(&found(before.into()));
    }
}

/// What `figures` calls of it.
const CALLS: [&str; 4] = [
    "skv_schedule",
    "skv_schedule_bytes",
    "skv_step",
    "skv_judge",
];

fn rename(before: &Path) {
    println!("cargo:rerun-if-changed={}", before.display());
    let folder = PathBuf::from(env::var_os("OUT_DIR").expect("cargo sets it"));
    let objcopy = env::var("SKVORZHAN_OBJCOPY").unwrap_or_else(|_| "objcopy".to_string());
    let mut command = Command::new(objcopy);
    // The others would be there twice.
    for call in CALLS {
        command.arg(format!("--redefine-sym={call}=before_{call}"));
        command.arg(format!("--keep-global-symbol=before_{call}"));
    }
    let renamed = folder.join("libskvorzhan_before.a");
    let done = command.arg(before).arg(&renamed).status();
    assert!(done.expect("objcopy is there").success(), "objcopy failed");
    println!("cargo:rustc-link-search=native={}", folder.display());
    println!("cargo:rustc-link-lib=static=skvorzhan_before");
    println!("cargo:rustc-cfg=before");
    // One from before arrivals has not this call, and its transactions have 4 bytes.
    let name = b"skv_read_later";
    let all = std::fs::read(before).expect("it's there");
    if all.windows(name.len()).any(|part| part == name) {
        println!("cargo:rustc-cfg=before_has_arrivals");
    }
}
