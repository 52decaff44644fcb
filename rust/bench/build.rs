//! Links an older build of the library beside this one where NIZKABEL_BEFORE names the folder of its archive, as `./run-bench ARCHIVE` makes it.

fn main() {
    println!("cargo::rustc-check-cfg=cfg(before)");
    println!("cargo::rerun-if-env-changed=NIZKABEL_BEFORE");
    let Ok(folder) = std::env::var("NIZKABEL_BEFORE") else { return };
    println!("cargo::rerun-if-changed={folder}/libnizkabel_before.a");
    println!("cargo::rustc-link-search=native={folder}");
    println!("cargo::rustc-link-lib=static=nizkabel_before");
    println!("cargo::rustc-cfg=before");
}
