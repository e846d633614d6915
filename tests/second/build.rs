//! Links the real library: `libbridge.a` from the directory named by KT_BRIDGE_DIR.

use std::path::Path;

fn main() {
    println!("cargo:rerun-if-env-changed=KT_BRIDGE_DIR");
    let Ok(named) = std::env::var("KT_BRIDGE_DIR") else {
        fail("KT_BRIDGE_DIR is not set: it must name the directory that holds libbridge.a");
    };
    let Ok(directory) = Path::new(&named).canonicalize() else {
        fail(&format!("KT_BRIDGE_DIR names no directory: {named}"));
    };
    let library = directory.join("libbridge.a");
    if !library.is_file() {
        fail(&format!(
            "there is no libbridge.a in KT_BRIDGE_DIR ({named})"
        ));
    }
    println!("cargo:rerun-if-changed={}", library.display());
    println!("cargo:rustc-link-search=native={}", directory.display());
    println!("cargo:rustc-link-lib=static=bridge");
}

fn fail(message: &str) -> ! {
    eprintln!("{message}");
    std::process::exit(1);
}
