//! Links libnugwier.a: that of the folder NUGWIER_LIB_DIR, else the one that this crate carries, else that of bindings/c.
use std::env;
use std::path::{Path, PathBuf};

/// What a processor of x86-64-v2 has beside the baseline, as far as older versions of rustc name it: the rest, CMPXCHG16B
/// and LAHF, is older than SSE4.2.
const V2: [&str; 5] = ["popcnt", "sse3", "sse4.1", "sse4.2", "ssse3"];

/// The folder of the archive for the processor that is built for.
fn carried(here: &Path) -> PathBuf {
    let features = env::var("CARGO_CFG_TARGET_FEATURE").unwrap_or_default();
    let has = |wanted: &&str| features.split(',').any(|feature| feature == *wanted);
    let newer = here.join("lib/x86-64-v2");
    if V2.iter().all(has) && newer.exists() {
        return newer;
    }
    here.join("lib/x86-64")
}

fn main() {
    println!("cargo:rerun-if-env-changed=NUGWIER_LIB_DIR");
    let target = (
        env::var("CARGO_CFG_TARGET_ARCH").unwrap_or_default(),
        env::var("CARGO_CFG_TARGET_OS").unwrap_or_default(),
    );
    let here =
        PathBuf::from(env::var_os("CARGO_MANIFEST_DIR").expect("cargo sets CARGO_MANIFEST_DIR"));
    let named = env::var_os("NUGWIER_LIB_DIR").map(PathBuf::from);
    if named.is_none() && target != ("x86_64".into(), "linux".into()) {
        panic!("libnugwier.a is for Linux on x86-64; NUGWIER_LIB_DIR names a folder with one for another target");
    }
    let places = named.map_or_else(
        || vec![carried(&here), here.join("../c")],
        |folder| vec![folder],
    );
    let has_archive = |folder: &&PathBuf| folder.join("libnugwier.a").is_file();
    let folder = places.iter().find(has_archive).unwrap_or_else(|| {
        panic!("no libnugwier.a in {places:?}: run `make -C bindings/c libnugwier.a`, or set NUGWIER_LIB_DIR")
    });
    println!(
        "cargo:rerun-if-changed={}",
        folder.join("libnugwier.a").display()
    );
    println!("cargo:rustc-link-search=native={}", folder.display());
    println!("cargo:rustc-link-lib=static=nugwier");
}
