//! Finds libuca: in the folder that `UCA_LIB_DIR` names, else by pkg-config, else where the linker looks by default.
use std::path::Path;
use std::process::{exit, Command};

const FILES: [&str; 2] = ["libuca.so", "libuca.a"];

/// What a program prints, if it runs and succeeds.
fn answer_of(program: &str, words: &[&str]) -> Option<String> {
    let output = Command::new(program).args(words).output().ok().filter(|output| output.status.success())?;
    String::from_utf8(output.stdout).ok()
}

/// Whether the linker finds the library by default: if so, the compiler prints a path, and otherwise the bare name.
fn linker_finds_it() -> bool {
    let compiler = std::env::var("CC").unwrap_or_else(|_| "cc".into());
    FILES.iter().any(|file| answer_of(&compiler, &[&format!("-print-file-name={file}")]).is_some_and(|path| path.contains('/')))
}

fn fail(why: &str) -> ! {
    eprintln!("{why}");
    eprintln!("libuca is built and installed by `make -C bindings/c install PREFIX=..` in the repository of Hagvlomi. Then name its folder");
    eprintln!("in UCA_LIB_DIR, or that of uca.pc in PKG_CONFIG_PATH.");
    exit(1);
}

fn main() {
    for name in ["UCA_LIB_DIR", "PKG_CONFIG", "PKG_CONFIG_PATH", "CC"] {
        println!("cargo:rerun-if-env-changed={name}");
    }
    println!("cargo:rustc-link-lib=uca");
    if let Ok(folder) = std::env::var("UCA_LIB_DIR") {
        if !FILES.iter().any(|file| Path::new(&folder).join(file).exists()) {
            fail(&format!("UCA_LIB_DIR is {folder:?}, which has no libuca.so and no libuca.a."));
        }
        println!("cargo:rustc-link-search=native={folder}");
        return;
    }
    let program = std::env::var("PKG_CONFIG").unwrap_or_else(|_| "pkg-config".into());
    if let Some(folder) = answer_of(&program, &["--variable=libdir", "uca"]) {
        println!("cargo:rustc-link-search=native={}", folder.trim());
    } else if !linker_finds_it() {
        fail("libuca was not found: UCA_LIB_DIR is not set, pkg-config knows no uca, and the linker finds none.");
    }
}
