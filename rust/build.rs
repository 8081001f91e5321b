// Links target/staticlib/libvoltamar_c.a of the repository, which `tools/archive voltamar_c` writes. `cargo doc` and `cargo check` need
// no archive: only a program that is linked asks for it. The benchmark of gather names a second one itself, in the same folder.
use std::path::Path;

fn main() {
    let root = Path::new(env!("CARGO_MANIFEST_DIR")).parent().expect("rust/ stands in the repository");
    let folder = root.join("target/staticlib");
    let archive = folder.join("libvoltamar_c.a");
    println!("cargo:rerun-if-changed={}", archive.display());
    println!("cargo:rerun-if-changed={}", folder.join("libgather_walk.a").display());
    if !archive.exists() {
        println!("cargo:warning={} is missing: `tools/archive voltamar_c` writes it", archive.display());
        return;
    }
    println!("cargo:rustc-link-search=native={}", folder.display());
    println!("cargo:rustc-link-lib=static=voltamar_c");
}
