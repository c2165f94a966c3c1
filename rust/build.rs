//! Finds libcometbanjo.a, which bin/native builds: the file or the folder that COMETBANJO_LIB names, or else ../target/native or ../lib.
use std::path::PathBuf;

const NAME: &str = "libcometbanjo.a";

fn missing(why: &str) -> ! {
    eprintln!("cometbanjo: {why}");
    eprintln!("cometbanjo: build it by `bin/native cometbanjo` in the library's repository, or set COMETBANJO_LIB to it or its folder");
    std::process::exit(1)
}

fn main() {
    println!("cargo:rerun-if-env-changed=COMETBANJO_LIB");
    println!("cargo:rerun-if-changed=build.rs");
    let here = PathBuf::from(std::env::var_os("CARGO_MANIFEST_DIR").unwrap_or_default());
    let archive = match std::env::var_os("COMETBANJO_LIB") {
        Some(named) if !named.is_empty() => {
            let named = PathBuf::from(named);
            // a build script runs in the crate's folder, so a path is best given whole
            let named = if named.is_dir() { named.join(NAME) } else { named };
            if !named.is_file() {
                missing(&format!("COMETBANJO_LIB names {}, and no archive is there", named.display()));
            }
            if named.file_name().and_then(|name| name.to_str()) != Some(NAME) {
                missing(&format!("COMETBANJO_LIB names {}; the archive is called {NAME}", named.display()));
            }
            named
        }
        _ => {
            let places = ["../target/native", "../lib"].map(|folder| here.join(folder).join(NAME));
            for place in &places {
                println!("cargo:rerun-if-changed={}", place.display());
            }
            match places.iter().find(|place| place.is_file()) {
                Some(place) => place.clone(),
                None => missing(&format!("no {NAME}: it is neither {} nor {}", places[0].display(), places[1].display())),
            }
        }
    };
    let Ok(archive) = archive.canonicalize() else { missing(&format!("{} cannot be read", archive.display())) };
    println!("cargo:rerun-if-changed={}", archive.display());
    if let Some(folder) = archive.parent() {
        println!("cargo:rustc-link-search=native={}", folder.display());
    }
    println!("cargo:rustc-link-lib=static=cometbanjo");
}
