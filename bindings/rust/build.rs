//! Makes the archive libtreenum_c.a by `tools/build treenum_c`, at the top of the repository, and
//! has it linked.

use std::fs::{self, File};
use std::path::{Path, PathBuf};
use std::process::Command;
use std::{env, io};

fn main() {
    if let Err(message) = link() {
        println!("cargo::error={message}");
        std::process::exit(1);
    }
}

fn link() -> Result<(), String> {
    if (var("CARGO_CFG_TARGET_ARCH"), var("CARGO_CFG_TARGET_OS"))
        != ("x86_64".into(), "linux".into())
    {
        return Err("the archive is for x86-64 and Linux alone".into());
    }
    let here = PathBuf::from(var("CARGO_MANIFEST_DIR"));
    let top = match here.ancestors().nth(2) {
        Some(top) if top.join("crates.txt").is_file() => top,
        _ => return Err(format!("no crates.txt two levels above {}", here.display())),
    };
    for source in sources(top).map_err(|error| error.to_string())? {
        println!("cargo::rerun-if-changed={}", source.display());
    }
    println!("cargo::rerun-if-env-changed=RATTLE_HOME");

    let out = PathBuf::from(var("OUT_DIR"));
    archive(top, &out.join("libtreenum_c.a")).map_err(|error| error.to_string())?;
    println!("cargo::rustc-link-search=native={}", out.display());
    println!("cargo::rustc-link-lib=static=treenum_c");
    Ok(())
}

/// What the archive is made of: crates.txt, and the crates but for what rt makes in their folders.
fn sources(top: &Path) -> io::Result<Vec<PathBuf>> {
    let mut sources = vec![top.join("crates.txt"), top.join("tools/build")];
    for krate in fs::read_dir(top.join("crates"))? {
        let folder = krate?.path();
        sources.extend(
            ["src", "specs", "proofs"]
                .map(|part| folder.join(part))
                .into_iter()
                .filter(|part| part.is_dir()),
        );
    }
    Ok(sources)
}

/// Makes the archive, and a copy of it.
///
/// Two runs of rt in one repository break each other, and another build may write the archive while
/// this one links it. So one build at a time makes it, and each links its own copy.
fn archive(top: &Path, copy: &Path) -> io::Result<()> {
    let target = top.join("target");
    fs::create_dir_all(&target)?;
    let lock = File::create(target.join("rust-binding.lock"))?;
    lock.lock()?;

    let command = "`tools/build treenum_c`";
    let status = Command::new("tools/build")
        .arg("treenum_c")
        .current_dir(top)
        // Standard output is for cargo. It shows the other one on a failure, and with -vv.
        .stdout(io::stderr())
        .status()
        .map_err(|error| {
            let hint = "does it stand at the top of the repository?";
            io::Error::other(format!("{command} did not run ({error}): {hint}"))
        })?;
    if !status.success() {
        let hint = "what it wrote stands below";
        return Err(io::Error::other(format!(
            "{command} failed ({status}): {hint}"
        )));
    }
    fs::copy(target.join("staticlib/libtreenum_c.a"), copy)?;
    Ok(())
}

fn var(name: &str) -> String {
    env::var(name).unwrap_or_else(|_| panic!("cargo sets {name}"))
}
