//! Finds the proved library `libsvga.a` and links it: the folder `SVGA_LIB_DIR` if that is set, else `target/staticlib` of the
//! repository, where `tools/archive svga` puts it. Where it does not stand there yet, that command is run.

use std::env;
use std::path::{Path, PathBuf};
use std::process::{exit, Command};

const ARCHIVE: &str = "libsvga.a";

fn main() {
    println!("cargo:rerun-if-env-changed=SVGA_LIB_DIR");
    println!("cargo:rerun-if-changed=build.rs");
    let machine = env::var("CARGO_CFG_TARGET_ARCH").unwrap_or_default();
    if machine != "x86_64" {
        give_up(&format!("{ARCHIVE} is made for x86-64, and this build is for {machine}"));
    }
    let folder = match env::var_os("SVGA_LIB_DIR") {
        Some(given) => given_folder(Path::new(&given)),
        None => repository_folder(),
    };
    println!("cargo:rerun-if-changed={}", folder.join(ARCHIVE).display());
    println!("cargo:rustc-link-search=native={}", folder.display());
    println!("cargo:rustc-link-lib=static=svga");
}

/// The folder that the user named: it has to have the archive.
fn given_folder(given: &Path) -> PathBuf {
    if !given.is_absolute() {
        give_up(&format!("SVGA_LIB_DIR is {}: name the folder by its whole path, from / on", given.display()));
    }
    if !given.join(ARCHIVE).is_file() {
        give_up(&format!("SVGA_LIB_DIR is {}, and there is no {ARCHIVE} in it", given.display()));
    }
    given.to_path_buf()
}

/// The repository's own folder; the archive is made where it is missing.
fn repository_folder() -> PathBuf {
    let here = PathBuf::from(env::var_os("CARGO_MANIFEST_DIR").expect("cargo sets CARGO_MANIFEST_DIR"));
    let root = here.join("../..").canonicalize().unwrap_or_else(|_| here.join("../.."));
    let folder = root.join("target/staticlib");
    if folder.join(ARCHIVE).is_file() {
        return folder;
    }
    let wanted = folder.join(ARCHIVE);
    match Command::new(root.join("tools/archive")).arg("svga").current_dir(&root).output() {
        Err(error) => {
            give_up(&format!("{} does not stand, and `tools/archive svga` cannot be started to make it: {error}", wanted.display()))
        }
        Ok(made) if !made.status.success() => give_up(&format!(
            "`tools/archive svga` in {} ended with {}:\n{}{}",
            root.display(),
            made.status,
            String::from_utf8_lossy(&made.stdout),
            String::from_utf8_lossy(&made.stderr)
        )),
        Ok(_) if !wanted.is_file() => give_up(&format!("`tools/archive svga` in {} wrote no {}", root.display(), wanted.display())),
        Ok(_) => folder,
    }
}

fn give_up(what: &str) -> ! {
    eprintln!("huacoxepa-svga: {what}");
    eprintln!("huacoxepa-svga: do one of these:");
    eprintln!("  - set SVGA_LIB_DIR to the whole path of a folder that has {ARCHIVE}");
    eprintln!("  - run `tools/archive svga` in the repository's root, with the Rattle toolchain (`rt`) on the PATH");
    exit(1);
}
