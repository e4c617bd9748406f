//! Links the core, `libtaskenv.a`, from the folder that the environment variable `TASKENV_LIBRARY` names.

use std::env;
use std::path::Path;
use std::process::exit;

const VARIABLE: &str = "TASKENV_LIBRARY";
const ARCHIVE: &str = "libtaskenv.a";

fn main() {
    println!("cargo::rerun-if-env-changed={VARIABLE}");
    let Some(folder) = env::var_os(VARIABLE) else {
        fail(&format!("{VARIABLE} is not set. It names the folder with {ARCHIVE}, which `./taskenv --library` makes."));
    };
    let Ok(folder) = Path::new(&folder).canonicalize() else {
        fail(&format!("{VARIABLE} is {}, which is no folder here.", folder.display()));
    };
    let archive = folder.join(ARCHIVE);
    if !archive.is_file() {
        fail(&format!("There is no {ARCHIVE} in {}, which {VARIABLE} names. `./taskenv --library` makes one.", folder.display()));
    }
    println!("cargo::rerun-if-changed={}", archive.display());
    println!("cargo::rustc-link-search=native={}", folder.display());
    println!("cargo::rustc-link-lib=static=taskenv");
}

fn fail(what: &str) -> ! {
    println!("cargo::error={what}");
    exit(1)
}
