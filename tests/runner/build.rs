//! Links the checker's archive, if it is there: the file named by CHECKER_ARCHIVE, else target/staticlib/libchecker.a of the
//! repository. Where there is none the runner is built without the product and can only check itself. The archive is x86-64 code: for
//! another machine nothing is linked, and the runner reaches the product through a child process (src/served.rs).

use std::path::PathBuf;

fn main() {
    println!("cargo::rustc-check-cfg=cfg(product)");
    println!("cargo::rerun-if-env-changed=CHECKER_ARCHIVE");
    if std::env::var("CARGO_CFG_TARGET_ARCH").is_ok_and(|arch| arch != "x86_64") {
        return;
    }
    let here = PathBuf::from(std::env::var("CARGO_MANIFEST_DIR").expect("cargo names the package"));
    let archive = match std::env::var("CHECKER_ARCHIVE") {
        Ok(name) if !name.is_empty() => PathBuf::from(name),
        _ => here.join("../../target/staticlib/libchecker.a"),
    };
    println!("cargo::rerun-if-changed={}", archive.display());
    let Ok(archive) = archive.canonicalize() else { return };
    let folder = archive.parent().expect("a file is in a folder");
    let name = archive.file_stem().and_then(|stem| stem.to_str()).and_then(|stem| stem.strip_prefix("lib"));
    let name = name.expect("the archive is named lib*.a");
    println!("cargo::rustc-cfg=product");
    println!("cargo::rustc-link-search=native={}", folder.display());
    println!("cargo::rustc-link-lib=static={name}");
}
