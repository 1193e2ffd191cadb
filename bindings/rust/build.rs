//! Finds `libboard.a` with its `board.h`, and refuses a library whose interface is another than this crate's.
//!
//! It is looked for in the folder `BOARD_DIR`, then where `pkg-config` has it, then in the archives of the repository's
//! `release` folder.

use std::env;
use std::error::Error;
use std::fs;
use std::path::{Path, PathBuf};
use std::process::Command;

type Outcome<T> = Result<T, Box<dyn Error>>;

const LIBRARY: &str = "libboard.a";
const HEADER: &str = "board.h";
const RELEASE: &str = "../../release";

/// Where the library and its header lie.
struct Found {
    library: PathBuf,
    header: PathBuf,
}

impl Found {
    /// Both in one folder.
    fn in_folder(folder: &Path) -> Option<Found> {
        let found = Found { library: folder.join(LIBRARY), header: folder.join(HEADER) };
        (found.library.is_file() && found.header.is_file()).then_some(found)
    }
}

fn by_variable() -> Outcome<Option<Found>> {
    match env::var_os("BOARD_DIR") {
        None => Ok(None),
        Some(folder) => {
            let folder = PathBuf::from(folder);
            let missing = || format!("BOARD_DIR: {} has no {} with its {}", folder.display(), LIBRARY, HEADER);
            Found::in_folder(&folder).map(Some).ok_or_else(|| missing().into())
        }
    }
}

/// The words that `pkg-config` answers, none where it knows no board.
fn pkg_config(word: &str) -> Vec<String> {
    let answer = Command::new("pkg-config").args([word, "board"]).output();
    match answer {
        Ok(answer) if answer.status.success() => {
            String::from_utf8_lossy(&answer.stdout).split_whitespace().map(String::from).collect()
        }
        _ => Vec::new(),
    }
}

fn by_pkg_config() -> Option<Found> {
    let folders = |word, option| -> Vec<PathBuf> {
        pkg_config(word).iter().filter_map(|word| word.strip_prefix(option).map(PathBuf::from)).collect()
    };
    let library = folders("--libs-only-L", "-L").iter().map(|at| at.join(LIBRARY)).find(|file| file.is_file())?;
    let header = folders("--cflags-only-I", "-I").iter().map(|at| at.join(HEADER)).find(|file| file.is_file())?;
    Some(Found { library, header })
}

/// The members of an archive, by `tar`.
fn members(archive: &Path) -> Vec<String> {
    match Command::new("tar").arg("-tzf").arg(archive).output() {
        Ok(list) => String::from_utf8_lossy(&list.stdout).lines().map(String::from).collect(),
        Err(_) => Vec::new(),
    }
}

fn by_release(out: &Path) -> Outcome<Option<Found>> {
    let folder = match fs::read_dir(RELEASE) {
        Ok(folder) => folder,
        Err(_) => return Ok(None),
    };
    for entry in folder {
        let archive = entry?.path();
        let list = members(&archive);
        let named =
            |name: &str| list.iter().find(|member| Path::new(member).file_name() == Some(name.as_ref())).cloned();
        if let (Some(library), Some(header)) = (named(LIBRARY), named(HEADER)) {
            let wanted = [&library, &header];
            if !Command::new("tar").arg("-xzf").arg(&archive).arg("-C").arg(out).args(wanted).status()?.success() {
                return Err(format!("{}: tar takes nothing out of it", archive.display()).into());
            }
            return Ok(Some(Found { library: out.join(library), header: out.join(header) }));
        }
    }
    Ok(None)
}

/// The interface of a header: the number after `#define BOARD_INTERFACE`.
fn interface(header: &Path) -> Outcome<u32> {
    let text = fs::read_to_string(header)?;
    let number = text.lines().find_map(|line| line.strip_prefix("#define BOARD_INTERFACE "));
    let number = number.ok_or_else(|| format!("{} has no BOARD_INTERFACE", header.display()))?;
    Ok(number.trim().trim_end_matches(['u', 'U']).parse()?)
}

fn find() -> Outcome<Found> {
    let out = PathBuf::from(env::var("OUT_DIR")?);
    if let Some(found) = by_variable()? {
        return Ok(found);
    }
    if let Some(found) = by_pkg_config() {
        return Ok(found);
    }
    by_release(&out)?.ok_or_else(|| {
        format!("no {} was found: `./board --library DIR` makes it, and BOARD_DIR=DIR says where it lies", LIBRARY)
            .into()
    })
}

fn link() -> Outcome<()> {
    println!("cargo:rerun-if-env-changed=BOARD_DIR");
    println!("cargo:rerun-if-env-changed=PKG_CONFIG_PATH");
    println!("cargo:rerun-if-changed=build.rs");
    let found = find()?;
    let wanted: u32 = env::var("CARGO_PKG_VERSION_MAJOR")?.parse()?;
    let has = interface(&found.header)?;
    if has != wanted {
        let library = found.library.display();
        return Err(format!("{library} has the interface {has}, and this crate is for {wanted}").into());
    }
    let folder = |file: &Path| file.parent().unwrap_or_else(|| Path::new(".")).display().to_string();
    println!("cargo:rerun-if-changed={}", found.library.display());
    println!("cargo:rerun-if-changed={}", found.header.display());
    println!("cargo:rustc-link-search=native={}", folder(&found.library));
    println!("cargo:rustc-link-lib=static=board");
    println!("cargo:rustc-env=BOARD_INCLUDE={}", folder(&found.header));
    Ok(())
}

fn main() {
    if let Err(fault) = link() {
        eprintln!("board-440fx: {fault}");
        std::process::exit(1);
    }
}
