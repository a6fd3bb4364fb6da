//! Finds the static library: in the folder that `PETASUNOK_LIB` names, in `PREFIX/lib` where this crate is installed in
//! `PREFIX/src/petasunok`, or in the repository, where `tools/archive` makes it if it is missing.
use std::env;
use std::path::{Path, PathBuf};
use std::process::{exit, Command};

/// Where an archive stands: its folder, and its name without `lib` and `.a`.
type Archive = (PathBuf, &'static str);

fn main() {
    println!("cargo:rerun-if-env-changed=PETASUNOK_LIB");
    let (arch, os) = (of_target("ARCH"), of_target("OS"));
    if (arch.as_str(), os.as_str()) != ("x86_64", "linux") {
        stop(&format!(
            "the static library is for x86-64 and Linux, not for {arch} and {os}; build with --target x86_64-unknown-linux-gnu"
        ));
    }
    let (folder, name) = match env::var_os("PETASUNOK_LIB") {
        Some(named) => in_named(Path::new(&named)),
        None => in_prefix_or_repository(),
    };
    println!("cargo:rerun-if-changed={}", folder.join(format!("lib{name}.a")).display());
    println!("cargo:rustc-link-search=native={}", folder.display());
    println!("cargo:rustc-link-lib=static={name}");
}

/// What cargo says of the target.
fn of_target(what: &str) -> String {
    env::var(format!("CARGO_CFG_TARGET_{what}")).unwrap_or_default()
}

/// Ends the build with a message.
fn stop(message: &str) -> ! {
    eprintln!("petasunok: {message}");
    exit(1)
}

/// The archive of a folder, if it has one; the repository's own is named after its crate.
fn archive_in(folder: &Path) -> Option<Archive> {
    let name = ["petasunok", "capi"]
        .into_iter()
        .find(|name| folder.join(format!("lib{name}.a")).is_file())?;
    Some((folder.to_path_buf(), name))
}

/// The archive in the folder that `PETASUNOK_LIB` names.
fn in_named(folder: &Path) -> Archive {
    if !folder.is_absolute() {
        stop(&format!(
            "PETASUNOK_LIB has to be the whole path of a folder, and it is '{}'",
            folder.display()
        ));
    }
    archive_in(folder).unwrap_or_else(|| {
        stop(&format!(
            "PETASUNOK_LIB names {}, and there is no libpetasunok.a in it",
            folder.display()
        ))
    })
}

/// The archive in `lib` beside the folder that this crate's folder stands in, or in the repository there.
fn in_prefix_or_repository() -> Archive {
    let here = PathBuf::from(env::var_os("CARGO_MANIFEST_DIR").expect("cargo names this folder"));
    let Some(above) = here.ancestors().nth(2) else {
        stop("libpetasunok.a was not found; name its folder in PETASUNOK_LIB")
    };
    let repository = above.join("target/staticlib");
    archive_in(&above.join("lib"))
        .or_else(|| archive_in(&repository))
        .unwrap_or_else(|| build(above, &repository))
}

/// Has the repository prove and build its archive.
fn build(root: &Path, folder: &Path) -> Archive {
    if !root.join("tools/archive").is_file() {
        stop(&format!(
            "there is no libpetasunok.a in {}; name its folder in PETASUNOK_LIB",
            root.join("lib").display()
        ));
    }
    println!("cargo:warning=proving and building the static library, which takes some minutes");
    match Command::new(root.join("tools/archive")).status() {
        Ok(status) if status.success() => {}
        Ok(status) => stop(&format!("`tools/archive` failed in {} ({status})", root.display())),
        Err(error) => stop(&format!("`tools/archive` did not start ({error}) in {}", root.display())),
    }
    archive_in(folder).unwrap_or_else(|| stop(&format!("`tools/archive` has left no archive in {}", folder.display())))
}
