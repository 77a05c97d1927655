//! Links the two archives in the folder that the environment variable `JUQABHINO_LIB` names.

use std::path::Path;
use std::process::exit;

const ARCHIVES: [&str; 2] = ["juqabhino_c", "libc_c"];

fn main() {
    println!("cargo:rerun-if-env-changed=JUQABHINO_LIB");
    let Ok(folder) = std::env::var("JUQABHINO_LIB") else {
        fail("JUQABHINO_LIB is not set: it names the folder of libjuqabhino_c.a and liblibc_c.a");
    };
    println!("cargo:rustc-link-search=native={folder}");
    for name in ARCHIVES {
        let archive = Path::new(&folder).join(format!("lib{name}.a"));
        if !archive.is_file() {
            fail(&format!("JUQABHINO_LIB: there is no file {}", archive.display()));
        }
        println!("cargo:rerun-if-changed={}", archive.display());
        println!("cargo:rustc-link-lib=static={name}");
    }
}

fn fail(message: &str) -> ! {
    eprintln!("{message}");
    exit(1);
}
