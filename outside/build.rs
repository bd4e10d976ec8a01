//! Links what the scripts have built: the proved library for the comparison and the benchmarks, the C peer for the
//! benchmarks. Without them the crate builds all the same, and compares the plain implementation with itself.

use std::env;

fn main() {
    for name in ["DOOR_FOLDER", "PEER_FOLDER"] {
        println!("cargo:rerun-if-env-changed={name}");
    }
    println!("cargo:rustc-check-cfg=cfg(proved)\ncargo:rustc-check-cfg=cfg(peer)");
    if let Ok(folder) = env::var("DOOR_FOLDER") {
        println!("cargo:rustc-link-search=native={folder}");
        for library in ["boxdoor", "harvestdoor", "airdoor", "talks", "runs"] {
            println!("cargo:rerun-if-changed={folder}/lib{library}.a");
            println!("cargo:rustc-link-lib=static={library}");
        }
        println!("cargo:rustc-cfg=proved");
    }
    if let Ok(folder) = env::var("PEER_FOLDER") {
        for program in ["bench", "pieces"] {
            println!("cargo:rerun-if-changed={folder}/{program}.o");
            println!("cargo:rustc-link-arg-bin={program}={folder}/{program}.o");
        }
        println!("cargo:rustc-cfg=peer");
    }
}
