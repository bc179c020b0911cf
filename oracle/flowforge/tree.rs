//! Build script of the crates that compile the published files: lays out, in the build folder, the module
//! tree that the published lib.rs asks for.
//!
//! Each published file stands there under its own path: as a link to it, or as a module of two
//! lines that includes it and, beside it, functions that read its private fields. Modules that the
//! listed files don't hold come from `missing/`. The crate `patched` has two files that are not the
//! published ones: their patched copies. The crates named `ticks` have nothing beside the files.

use std::{
    env, fs,
    path::{Path, PathBuf},
};

/// Published files that are compiled as they are.
const PLAIN: [&str; 11] = [
    "lib.rs",
    "flow.rs",
    "components/bouncer.rs",
    "components/ticker.rs",
    "networks/remy.rs",
    "quantities/mod.rs",
    "quantities/information.rs",
    "quantities/information_rate.rs",
    "quantities/time_span.rs",
    "util/average.rs",
    "util/logging.rs",
];

/// Published files that are compiled as they are, with functions of the harness in their module.
const WITH_BESIDE: [&str; 8] = [
    "simulation.rs",
    "components/link.rs",
    "components/packet.rs",
    "components/senders/lossy.rs",
    "components/toggler.rs",
    "quantities/time.rs",
    "util/meters.rs",
    "util/rand.rs",
];

/// Modules that the listed files name and don't hold, and the stand-in for each.
const MISSING: [(&str, &str); 8] = [
    ("ccas.rs", "empty.rs"),
    ("eval.rs", "empty.rs"),
    ("trainers.rs", "empty.rs"),
    ("components/mod.rs", "components.rs"),
    ("components/senders/mod.rs", "senders.rs"),
    ("networks/mod.rs", "networks.rs"),
    ("util/mod.rs", "util.rs"),
    ("util/never.rs", "never.rs"),
];

/// The patch: of each file what stands there once, and what takes its place. An amount then counts
/// bits, and a packet has the bits of its sender.
const PATCH: [(&str, &[(&str, &str)]); 2] = [
    (
        "quantities/information.rs",
        &[("self.bytes() * 8", "self.bytes()")],
    ),
    (
        "components/packet.rs",
        &[
            (
                "quantities::{packets, Information, Time}",
                "quantities::{Information, Time}",
            ),
            ("pub const fn size", "pub fn size"),
            ("packets(1)", "crate::sizes::of(self)"),
        ],
    ),
];

fn main() {
    println!("cargo:rerun-if-env-changed=FLOWFORGE");
    let published = PathBuf::from(env::var_os("FLOWFORGE").expect("FLOWFORGE is not set"));
    assert!(
        published.is_absolute() && published.join("lib.rs").is_file(),
        "FLOWFORGE must be the absolute path of the folder that holds the published lib.rs"
    );
    let harness = fs::canonicalize("..").unwrap();
    let out = PathBuf::from(env::var("OUT_DIR").unwrap());
    let tree = out.join("tree");
    let package = env::var("CARGO_PKG_NAME").unwrap();
    let (patched, alone) = (package == "patched", package == "ticks");

    // The file that is compiled in the place of a published one: itself, or its patched copy.
    let compiled = |path: &str| {
        let file = track(published.join(path));
        match PATCH.iter().find(|(name, _)| *name == path) {
            Some((_, changes)) if patched => {
                let copy = out.join("patched").join(path);
                write(&copy, &patch(&file, changes));
                copy
            }
            _ => file,
        }
    };

    let _ = fs::remove_dir_all(&tree);
    for path in PLAIN {
        link(&compiled(path), &tree.join(path));
    }
    for path in WITH_BESIDE {
        if alone {
            link(&compiled(path), &tree.join(path));
            continue;
        }
        let name = Path::new(path).file_name().unwrap();
        let beside = track(harness.join("beside").join(name));
        write(
            &tree.join(path),
            &(include(&compiled(path)) + &include(&beside)),
        );
    }
    for (path, stand_in) in MISSING {
        let stand_in = track(harness.join("missing").join(stand_in));
        link(&stand_in, &tree.join(path));
    }
    let mut root = format!("#[path = {:?}]\npub mod flowforge;\n", tree.join("lib.rs"));
    if !alone {
        root += &format!("\nconst PATCHED: bool = {patched};\n");
    }
    write(&out.join("root.rs"), &root);
}

fn include(path: &Path) -> String {
    format!("include!({path:?});\n")
}

fn link(to: &Path, from: &Path) {
    fs::create_dir_all(from.parent().unwrap()).unwrap();
    std::os::unix::fs::symlink(to, from).unwrap();
}

fn write(path: &Path, text: &str) {
    fs::create_dir_all(path.parent().unwrap()).unwrap();
    fs::write(path, text).unwrap();
}

fn track(path: PathBuf) -> PathBuf {
    assert!(path.is_file(), "{} is missing", path.display());
    println!("cargo:rerun-if-changed={}", path.display());
    path
}

fn patch(path: &Path, changes: &[(&str, &str)]) -> String {
    changes
        .iter()
        .fold(fs::read_to_string(path).unwrap(), |text, (old, new)| {
            assert_eq!(
                text.matches(old).count(),
                1,
                "the patch doesn't fit at `{old}`"
            );
            text.replace(old, new)
        })
}
