//! Names the two archives to the linker. ZIRBONNU_ARCHIVES is the folders that they lie in, parted by colons.

fn main() {
    println!("cargo:rerun-if-env-changed=ZIRBONNU_ARCHIVES");
    let folders = std::env::var("ZIRBONNU_ARCHIVES").unwrap_or_default();
    for folder in folders.split(':').filter(|it| !it.is_empty()) {
        println!("cargo:rustc-link-search=native={folder}");
        println!("cargo:rerun-if-changed={folder}/libzirbonnu.a");
    }
    println!("cargo:rustc-link-lib=static=zirbonnu");
    println!("cargo:rustc-link-lib=static=libc_c");
}
