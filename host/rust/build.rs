//! Links `librivetyellow.a`, and `librow_search.a` with the search in a row
//! alone, from the directory that `RIVETYELLOW_LIB` names; both are wanted
//! there. Without it everything but the linked calls is built.

use std::env;

fn main() {
    println!("cargo:rustc-check-cfg=cfg(linked)");
    println!("cargo:rerun-if-env-changed=RIVETYELLOW_LIB");
    let Some(directory) = env::var_os("RIVETYELLOW_LIB").filter(|value| !value.is_empty()) else {
        return;
    };
    let directory = directory
        .into_string()
        .expect("RIVETYELLOW_LIB is a path in UTF-8");
    println!("cargo:rustc-link-search=native={directory}");
    for library in ["rivetyellow", "row_search"] {
        println!("cargo:rerun-if-changed={directory}/lib{library}.a");
        println!("cargo:rustc-link-lib=static={library}");
    }
    println!("cargo:rustc-cfg=linked");
}
