//! Tells cargo where libdnorm is: in the folder that `DNORM_LIB` names, or where `pkg-config` finds it. Otherwise it
//! compiles the library as one C file, which is beside this crate in a package, by `$CC` or `cc`. With `DNORM_STATIC=1`
//! the archive is linked.
use std::path::{Path, PathBuf};
use std::{env, process::Command};

/// Where the C file is, from this crate on: in a package of it, and in a clone.
const FILES: [&str; 2] = ["libdnorm.c", "../../released/c/libdnorm.c"];

fn main() {
    println!("cargo:rerun-if-env-changed=DNORM_LIB");
    println!("cargo:rerun-if-env-changed=DNORM_STATIC");
    println!("cargo:rerun-if-env-changed=PKG_CONFIG_PATH");
    if let Some(folder) = env::var("DNORM_LIB").ok().or_else(by_pkg_config) {
        let is_static = env::var("DNORM_STATIC").map_or(false, |it| it == "1");
        let names = ["libdnorm.a", "libdnorm.so", "libdnorm.dylib", "dnorm.lib"];
        let has_one = names.iter().any(|it| Path::new(&folder).join(it).exists());
        if !has_one {
            stop(&format!(
                "{folder} has no libdnorm: DNORM_LIB names the folder with it"
            ));
        }
        link(&folder, is_static);
    } else {
        let folder = PathBuf::from(env::var("CARGO_MANIFEST_DIR").unwrap_or_default());
        let found = FILES
            .iter()
            .map(|it| folder.join(it))
            .find(|it| it.exists());
        let file = found.unwrap_or_else(|| {
            stop("there is no libdnorm: set DNORM_LIB to its folder, or PKG_CONFIG_PATH to that of dnorm.pc")
        });
        println!("cargo:rerun-if-changed={}", file.display());
        link(&compiled(&file), true);
    }
}

fn by_pkg_config() -> Option<String> {
    let asked = Command::new("pkg-config")
        .args(["--variable=libdir", "dnorm"])
        .output()
        .ok()?;
    let told = String::from_utf8(asked.stdout)
        .ok()
        .filter(|_| asked.status.success())?;
    Some(told.trim().to_owned())
}

/// Compiles the C file to an archive, and returns its folder.
fn compiled(file: &Path) -> String {
    let folder = env::var("OUT_DIR").unwrap_or_default();
    let (object, archive) = (
        format!("{folder}/libdnorm.o"),
        format!("{folder}/libdnorm.a"),
    );
    let cc = env::var("CC").unwrap_or_else(|_| "cc".to_owned());
    let source = file.display().to_string();
    run(&cc, &["-O2", "-fPIC", "-c", "-o", &object, &source]);
    run(
        &env::var("AR").unwrap_or_else(|_| "ar".to_owned()),
        &["rcs", &archive, &object],
    );
    folder
}

fn run(program: &str, words: &[&str]) {
    let ran = Command::new(program).args(words).status();
    if !ran.map_or(false, |it| it.success()) {
        stop(&format!("{program} could not compile libdnorm.c: set CC and AR, or DNORM_LIB to the library's folder"));
    }
}

fn link(folder: &str, is_static: bool) {
    println!("cargo:rustc-link-search=native={folder}");
    println!(
        "cargo:rustc-link-lib={}dnorm",
        if is_static { "static=" } else { "" }
    );
}

fn stop(line: &str) -> ! {
    eprintln!("dnorm-sys: {line}");
    std::process::exit(1);
}
