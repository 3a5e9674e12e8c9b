//! This crate and the gate's are checked and documented where the archives are not built; only warnings say so.

use std::path::Path;
use std::process::Command;

#[test]
fn checked_and_documented() {
    let folder = Path::new(env!("CARGO_TARGET_TMPDIR")).join("without_archive");
    for words in [&["check"][..], &["doc", "--no-deps"]] {
        let output = Command::new(env!("CARGO"))
            .args(words)
            .args(["--offline", "-p", "osnma", "-p", "valve_gate"])
            .current_dir(env!("CARGO_MANIFEST_DIR"))
            .env("OSNMA_STATICLIB", folder.join("nothing"))
            .env("CARGO_TARGET_DIR", &folder)
            .env("RUSTDOCFLAGS", "-D warnings")
            .output()
            .expect("cargo");
        let errors = String::from_utf8_lossy(&output.stderr);
        assert!(output.status.success(), "cargo {words:?}: {errors}");
        for archive in ["libosnma.a", "libvalve_gate.a"] {
            let missing = format!("nothing/{archive} is missing");
            assert!(errors.contains(&missing), "{errors}");
        }
    }
}
