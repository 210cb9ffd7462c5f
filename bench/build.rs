//! Links the library's compiled code, an archive in the folder that bench/run names.

fn main() {
    println!("cargo:rerun-if-env-changed=BENCH_ARCHIVE");
    let folder = std::env::var("BENCH_ARCHIVE").expect("bench/run names the folder of the archive");
    println!("cargo:rerun-if-changed={folder}/libbench.a");
    println!("cargo:rustc-link-search=native={folder}");
    println!("cargo:rustc-link-lib=static=bench");
}
