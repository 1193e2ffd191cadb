//! The crate as a registry takes it.

use std::path::Path;
use std::process::Command;

/// Begins what only the owner of the crate can say: the license, and where the repository is.
const OWNERS: &str = "warning: manifest has no license";

#[test]
fn the_package_wants_its_owners_words_alone() -> Result<(), Box<dyn std::error::Error>> {
    let folder = Path::new(env!("CARGO_TARGET_TMPDIR")).join("package");
    let words = ["package", "--no-verify", "--offline", "--allow-dirty", "--target-dir"];
    let made = Command::new(env!("CARGO")).args(words).arg(folder).current_dir(env!("CARGO_MANIFEST_DIR")).output()?;
    let said = String::from_utf8(made.stderr)?;
    assert!(made.status.success(), "{said}");
    for line in said.lines().filter(|line| line.starts_with("warning") || line.starts_with("error")) {
        assert!(line.starts_with(OWNERS), "{line}");
    }
    let manifest = std::fs::read_to_string(concat!(env!("CARGO_MANIFEST_DIR"), "/Cargo.toml"))?;
    assert!(!manifest.contains("publish = false"));
    Ok(())
}
