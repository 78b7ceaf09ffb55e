//! The names and numbers of `include/svga.h` and of this crate are the same, and those of the raster operations are the proved code's.

use std::collections::BTreeMap;
use std::fs;
use std::path::Path;
use std::process::Command;

/// What this crate has, under the header's names.
fn ours() -> BTreeMap<String, u64> {
    let single = [
        ("SVGA_ABI_VERSION", u64::from(svga::ABI_VERSION)),
        ("SVGA_DEVICE_WORDS", svga::DEVICE_WORDS as u64),
        ("SVGA_CURSOR_WORDS", svga::CURSOR_WORDS as u64),
        ("SVGA_EDGES_WORDS", svga::EDGES_WORDS as u64),
        ("SVGA_CAPABILITIES", u64::from(svga::CAPABILITIES)),
        ("SVGA_APPEND_TAKEN", u64::from(svga::APPEND_TAKEN)),
        ("SVGA_APPEND_REFUSED", u64::from(svga::APPEND_REFUSED)),
    ];
    let lists = [
        svga::limit::ALL,
        svga::answer::ALL,
        svga::reg::ALL,
        svga::id::ALL,
        svga::cursor_on::ALL,
        svga::cap::ALL,
        svga::fifo::ALL,
        svga::cmd::ALL,
        svga::rop::ALL,
    ];
    let listed = lists.into_iter().flatten().map(|&(name, value)| (name.to_string(), u64::from(value)));
    single.into_iter().map(|(name, value)| (name.to_string(), value)).chain(listed).collect()
}

/// What a C compiler makes of the header's names.
fn headers() -> BTreeMap<String, u64> {
    let include = Path::new(env!("CARGO_MANIFEST_DIR")).join("../../include");
    let text = fs::read_to_string(include.join("svga.h")).expect("include/svga.h");
    let names = text.lines().filter_map(|line| line.strip_prefix("#define ")?.split_whitespace().next()).filter(|name| *name != "SVGA_H");
    let mut program = String::from("#include <stdio.h>\n#include \"svga.h\"\nint main(void) {\n");
    for name in names {
        program += &format!("    printf(\"{name} %llu\\n\", (unsigned long long)({name}));\n");
    }
    program += "    return 0;\n}\n";

    let folder = Path::new(env!("CARGO_TARGET_TMPDIR"));
    let (source, built) = (folder.join("names.c"), folder.join("names"));
    fs::write(&source, program).expect("write names.c");
    let compiled = Command::new("cc")
        .args(["-std=c99", "-Wall", "-Wextra", "-Werror", "-I"])
        .arg(&include)
        .arg("-o")
        .arg(&built)
        .arg(&source)
        .status();
    assert!(compiled.expect("a C compiler named cc has to be on the PATH").success(), "include/svga.h does not compile");
    let said = Command::new(&built).output().expect("run names").stdout;
    let said = String::from_utf8(said).expect("names are ASCII");
    said.lines()
        .map(|line| line.split_once(' ').expect("a name and a number"))
        .map(|(name, value)| (name.to_string(), value.parse().unwrap()))
        .collect()
}

#[test]
fn the_header_and_this_crate_agree() {
    assert_eq!(headers(), ours());
}

/// The raster operations that the proved code names, under the header's names.
fn named_in_code() -> Vec<(String, u32)> {
    let code = Path::new(env!("CARGO_MANIFEST_DIR")).join("../../crates/pixel/src/lib.rt");
    let text = fs::read_to_string(code).expect("crates/pixel/src/lib.rt");
    text.lines()
        .filter_map(|line| line.strip_prefix("pub const ")?.strip_suffix(';')?.split_once(": u32 = "))
        .map(|(name, value)| (format!("SVGA_ROP_{name}"), value.parse().unwrap()))
        .collect()
}

#[test]
fn raster_operations_are_those_of_the_code() {
    let ours: Vec<_> = svga::rop::ALL.iter().map(|&(name, value)| (name.to_string(), value)).collect();
    assert_eq!(named_in_code(), ours);
}

#[test]
fn capabilities_are_the_bits_named() {
    assert_eq!(svga::cap::ALL.iter().fold(0, |bits, cap| bits | cap.1), svga::CAPABILITIES);
}

#[test]
fn names_for_logs() {
    assert_eq!(svga::register_name(svga::reg::CONFIG_DONE), Some("CONFIG_DONE"));
    assert_eq!(svga::register_name(29), None);
    assert_eq!(svga::command_name(svga::cmd::DEFINE_ALPHA_CURSOR), Some("DEFINE_ALPHA_CURSOR"));
    assert_eq!(svga::command_name(20), None);
}
