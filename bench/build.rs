//! Links the proved board, whose archives `run.sh` names.

use std::env;

fn main() {
    for (variable, library) in [("STATION_ARCHIVE", "station"), ("LIBC_C_ARCHIVE", "libc_c")] {
        println!("cargo:rerun-if-env-changed={variable}");
        let archive = env::var(variable)
            .unwrap_or_else(|_| panic!("{variable} must name lib{library}.a: use bench/run.sh"));
        println!("cargo:rerun-if-changed={archive}");
        let folder = archive
            .strip_suffix(&format!("/lib{library}.a"))
            .unwrap_or_else(|| panic!("{variable} must end in lib{library}.a"));
        println!("cargo:rustc-link-search=native={folder}");
        println!("cargo:rustc-link-lib=static={library}");
    }
}
