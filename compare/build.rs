//! Links the proved library. `EXPORTS` is the folder of its archive, `KIT_C` that of the kit's C code.

use std::env;
use std::path::Path;

fn main() {
    println!("cargo:rerun-if-env-changed=EXPORTS");
    println!("cargo:rerun-if-env-changed=KIT_C");
    if let Ok(folder) = env::var("EXPORTS") {
        println!("cargo:rerun-if-changed={}", Path::new(&folder).join("libexports.a").display());
        println!("cargo:rustc-link-search=native={folder}");
        println!("cargo:rustc-link-lib=static=exports");
    }
    if let Ok(folder) = env::var("KIT_C") {
        println!("cargo:rustc-link-search=native={folder}");
        println!("cargo:rustc-link-lib=static=os_c");
        println!("cargo:rustc-link-lib=static=libc_c");
    }
}
