//! Where the library for C is: the folder that TUVADDRI_FOLDER names, else `c/out` of these sources, its `dist` or its
//! `unchecked`, else where pkg-config finds it, else it is assembled of dist/.
use std::path::{Path, PathBuf};
use std::process::Command;

fn main() {
    println!("cargo:rerun-if-env-changed=TUVADDRI_FOLDER");
    let mut built = ["../out", "../out/dist", "../out/unchecked"].iter().map(|it| Path::new(env!("CARGO_MANIFEST_DIR")).join(it));
    let named = std::env::var_os("TUVADDRI_FOLDER").map(PathBuf::from);
    match named.or_else(|| built.find(|it| it.join("libtuvaddri.a").exists())).or_else(installed).or_else(assembled) {
        Some(folder) => {
            let form = if folder.join("libtuvaddri.a").exists() { "static=" } else { "" };
            println!("cargo:rerun-if-changed={}", folder.join("libtuvaddri.a").display());
            println!("cargo:rustc-link-search=native={}", folder.display());
            println!("cargo:rustc-link-lib={form}tuvaddri");
        }
        None => panic!("there is no libtuvaddri.a: c/library builds it, or TUVADDRI_FOLDER names its folder"),
    }
}

fn assembled() -> Option<PathBuf> {
    let c = Path::new(env!("CARGO_MANIFEST_DIR")).join("..");
    let done = Command::new(c.join("library")).arg("--dist").status().ok()?;
    Some(c.join("out/dist")).filter(|_| done.success())
}

fn installed() -> Option<PathBuf> {
    let said = Command::new("pkg-config").args(["--variable=libdir", "tuvaddri"]).output().ok()?;
    let folder = String::from_utf8(said.stdout).ok()?;
    Some(folder.trim()).filter(|it| said.status.success() && !it.is_empty()).map(PathBuf::from)
}
