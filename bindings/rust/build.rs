//! Links the static library: the one in the folder WIDESTRING_LIB_DIR, or else the one that a released crate has in
//! `lib`, or else one of this crate's version that pkg-config finds, or else the one of this repository. PKG_CONFIG names
//! the program that is called.
//!
//! `cargo check` and documentation link nothing, so a missing library is a warning here. rustc rejects it where it is
//! linked.
use std::env;
use std::path::{absolute, Path, PathBuf};
use std::process::{exit, Command};

const WATCHED: [&str; 5] = [
    "WIDESTRING_LIB_DIR",
    "PKG_CONFIG",
    "PKG_CONFIG_PATH",
    "PKG_CONFIG_LIBDIR",
    "PKG_CONFIG_SYSROOT_DIR",
];

fn fail(why: &str) -> ! {
    eprintln!("widestring-proved: {why}");
    exit(1)
}

/// The library is machine code for this target only.
fn check_target() {
    for (what, wanted) in [("ARCH", "x86_64"), ("OS", "linux"), ("POINTER_WIDTH", "64")] {
        let reported = env::var(format!("CARGO_CFG_TARGET_{what}")).unwrap_or_default();
        if reported != wanted {
            fail(&format!(
                "the library of widestring is for x86-64 Linux alone: {what} is {reported}, and not {wanted}"
            ));
        }
    }
}

/// Returns what pkg-config prints, if it exists and succeeds.
fn pkg_config(arguments: &[&str]) -> Option<String> {
    let program = env::var_os("PKG_CONFIG").unwrap_or_else(|| "pkg-config".into());
    let output = Command::new(program).args(arguments).output().ok()?;
    let text = String::from_utf8(output.stdout).ok()?;
    output.status.success().then(|| text.trim().to_owned())
}

/// Returns the first version that may change functions: the next major version, or the next minor version while the
/// major one is 0.
fn next_version() -> String {
    let number = |name: &str| {
        let text = env::var(format!("CARGO_PKG_VERSION_{name}")).expect("cargo's version");
        text.parse::<u32>().expect("a number")
    };
    match number("MAJOR") {
        0 => format!("0.{}", number("MINOR") + 1),
        major => format!("{}", major + 1),
    }
}

/// Returns the folder that pkg-config reports for a library whose functions are those of this crate.
fn known_folder() -> Option<PathBuf> {
    let found = pkg_config(&["--modversion", "widestring"])?;
    let own = env::var("CARGO_PKG_VERSION").expect("cargo's version");
    let next = next_version();
    let is_own = pkg_config(&[
        "--exists",
        &format!("widestring >= {own}"),
        &format!("widestring < {next}"),
    ]);
    if is_own.is_none() {
        println!("cargo:warning=pkg-config knows widestring {found}, which is passed over: this crate is for {own} and later, below {next}");
        return None;
    }
    let folder = pkg_config(&["--variable=libdir", "widestring"])?;
    (!folder.is_empty()).then(|| PathBuf::from(folder))
}

/// The library's names, as it is installed and as it is built.
const NAMES: [&str; 2] = ["widestring", "widestring_c"];

/// Returns the library's file in a folder.
fn file(folder: &Path, name: &str) -> PathBuf {
    folder.join(format!("lib{name}.a"))
}

/// Returns the library's name in a folder.
fn name_in(folder: &Path) -> Option<&'static str> {
    NAMES.into_iter().find(|name| file(folder, name).is_file())
}

/// Warns that no folder has the library, and asks for it all the same, so that rustc reports it as missing if it compiles
/// the crate. It also watches files that do not exist, so the next build looks again.
fn report_missing(folders: &[PathBuf]) {
    let why = format!("no library of widestring in {folders:?}: set WIDESTRING_LIB_DIR, or run ./prove widestring_c in the repository");
    for folder in folders {
        for name in NAMES {
            println!("cargo:rerun-if-changed={}", file(folder, name).display());
        }
    }
    println!("cargo:warning={why}");
    println!("cargo:rustc-link-lib=static={}", NAMES[0]);
}

fn main() {
    for name in WATCHED {
        println!("cargo:rerun-if-env-changed={name}");
    }
    check_target();
    let here = PathBuf::from(env::var_os("CARGO_MANIFEST_DIR").expect("cargo's folder"));
    let released = here.join("lib");
    let folders = match env::var_os("WIDESTRING_LIB_DIR") {
        Some(folder) => vec![absolute(&folder).unwrap_or_else(|_| folder.into())],
        None if name_in(&released).is_some() => vec![released],
        None => known_folder()
            .into_iter()
            .chain([here.join("../../crates/widestring_c/out")])
            .collect(),
    };
    let Some((folder, name)) = folders
        .iter()
        .find_map(|folder| Some((folder, name_in(folder)?)))
    else {
        return report_missing(&folders);
    };
    println!("cargo:rerun-if-changed={}", file(folder, name).display());
    println!("cargo:rustc-link-search=native={}", folder.display());
    println!("cargo:rustc-link-lib=static={name}");
}
