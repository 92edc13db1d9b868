//! Links the engine, a static library.
//!
//! It looks for the library in `BITES_C_DIR` if that is set, else in `lib` of this folder, which a release has, else in the
//! checkout that this crate is part of. `libbites.a` is complete. `libbites_c.a`, which `rt lib` makes, also needs
//! `liblibc_c.a` of the toolchain, from `RATTLE_C_DIR` or from where the command `rt` says. If the library is missing, older than
//! a source of the checkout, or made for another target, one line says what to do.
//!
//! With `BITES_C_SKIP` or `DOCS_RS` set it looks for no library. That is enough for `cargo check` and `cargo doc`, which link nothing.

use std::env;
use std::fs;
use std::iter;
use std::path::{Path, PathBuf};
use std::process::{exit, Command};
use std::time::SystemTime;

/// What the library is made for.
const TARGET: &str = "x86_64-unknown-linux-gnu";

/// What each line ends with.
const WITHOUT: &str = "for `cargo check` and `cargo doc` alone, set BITES_C_SKIP=1";

fn main() {
    tell_variables();
    let links = libraries().unwrap_or_else(|line| {
        eprintln!("{line}; {WITHOUT}");
        exit(1)
    });
    links.tell();
}

fn tell_variables() {
    // A build for the race detector helgrind sets this.
    println!("cargo:rustc-check-cfg=cfg(helgrind)");
    for name in ["BITES_C_DIR", "BITES_C_SKIP", "DOCS_RS", "RATTLE_C_DIR"] {
        println!("cargo:rerun-if-env-changed={name}");
    }
}

/// Returns the libraries to link, or a line that says what to do.
fn libraries() -> Result<Links, String> {
    if ["BITES_C_SKIP", "DOCS_RS"]
        .iter()
        .any(|name| env::var_os(name).is_some())
    {
        return Ok(Links::default());
    }
    let target = env::var("TARGET").expect("cargo sets TARGET");
    if target != TARGET {
        return Err(format!(
            "the library is made for {TARGET}, and not for {target}"
        ));
    }
    let crate_folder =
        PathBuf::from(env::var_os("CARGO_MANIFEST_DIR").expect("cargo sets CARGO_MANIFEST_DIR"));
    let packed = crate_folder.join("lib");
    if let Some(folder) = env::var_os("BITES_C_DIR") {
        installed(Path::new(&folder))
    } else if packed.is_dir() {
        packed_with(&packed)
    } else {
        of_checkout(crate_folder.parent().expect("the folder of a checkout"))
    }
}

/// The libraries to link, and the files that this depends on, even if they are not there.
#[derive(Default)]
struct Links {
    libraries: Vec<(&'static str, PathBuf)>,
    watched: Vec<PathBuf>,
}

impl Links {
    fn add(&mut self, library: &'static str, folder: &Path) {
        self.libraries.push((library, folder.to_path_buf()));
    }

    /// Watches a file, and returns whether it is there.
    fn watch(&mut self, path: PathBuf) -> bool {
        let exists = path.exists();
        self.watched.push(path);
        exists
    }

    fn tell(&self) {
        for path in &self.watched {
            println!("cargo:rerun-if-changed={}", path.display());
        }
        for (library, folder) in &self.libraries {
            println!("cargo:rustc-link-search=native={}", folder.display());
            println!("cargo:rustc-link-lib=static={library}");
        }
    }
}

/// Returns what `BITES_C_DIR` names: an installed library, or one that `rt lib` made.
fn installed(folder: &Path) -> Result<Links, String> {
    let mut links = Links::default();
    if links.watch(folder.join("libbites.a")) {
        links.add("bites", folder);
    } else if links.watch(folder.join("libbites_c.a")) {
        links.add("bites_c", folder);
        add_toolchain(&mut links)?;
    } else {
        return Err(format!(
            "no libbites.a in {}, the BITES_C_DIR: run `c/install PREFIX` in a checkout and set BITES_C_DIR=PREFIX/lib",
            folder.display()
        ));
    }
    Ok(links)
}

/// Returns what the folder `lib` of a release has.
fn packed_with(folder: &Path) -> Result<Links, String> {
    let mut links = Links::default();
    if !links.watch(folder.join("libbites.a")) {
        let folder = folder.display();
        return Err(format!(
            "no libbites.a in {folder}: unpack the release again"
        ));
    }
    links.add("bites", folder);
    Ok(links)
}

fn of_checkout(checkout: &Path) -> Result<Links, String> {
    let mut links = Links::default();
    let place = checkout.display();
    let remedy = format!(
        "run `tools/archive bites_c` in {place}, or set BITES_C_DIR to the folder of an installed libbites.a"
    );
    let needed = Needed::read(checkout)?;
    let folder = checkout.join("crates/bites_c/out");
    let archive = folder.join("libbites_c.a");
    links.watch(archive.clone());
    let Some(made) = modified(&archive) else {
        return Err(format!(
            "crates/bites_c/out/libbites_c.a is missing: {remedy}"
        ));
    };
    if let Some(newer) = needed.newer_than(made, &folder.join("libbites_c.crates")) {
        let newer = newer.strip_prefix(checkout).unwrap_or(&newer).display();
        return Err(format!(
            "crates/bites_c/out/libbites_c.a is older than {newer}: {remedy}"
        ));
    }
    links.watched.extend(needed.sources);
    links.watched.push(needed.list);
    links.add("bites_c", &folder);
    add_toolchain(&mut links)?;
    Ok(links)
}

/// What the archive is made of.
struct Needed {
    /// The file `crates.txt`.
    list: PathBuf,
    /// The lines of that file for `bites_c` and for the crates below it.
    lines: String,
    /// The folders of the sources of these crates.
    sources: Vec<PathBuf>,
}

impl Needed {
    fn read(checkout: &Path) -> Result<Needed, String> {
        let list = checkout.join("crates.txt");
        let text = fs::read_to_string(&list).map_err(|_| {
            let list = list.display();
            format!(
                "no file {list}: this crate is neither in a checkout nor in a release; \
                 set BITES_C_DIR to the folder of an installed libbites.a"
            )
        })?;
        let mut lines = text.lines();
        let line = lines.find_map(|line| line.strip_prefix("bites_c staticlib"));
        let below = line.and_then(|line| line.split_once(':'));
        let below = below.map_or("", |(_, names)| names).split_whitespace();
        let names: Vec<&str> = iter::once("bites_c").chain(below).collect();
        let folders = names.iter().flat_map(|name| {
            let folder = checkout.join("crates").join(name);
            ["src", "specs", "proofs"].map(|part| folder.join(part))
        });
        let is_needed = |line: &&str| names.contains(&line.split([' ', ':']).next().unwrap_or(""));
        Ok(Needed {
            lines: text
                .lines()
                .filter(is_needed)
                .map(|line| format!("{line}\n"))
                .collect(),
            sources: folders.filter(|folder| folder.is_dir()).collect(),
            list,
        })
    }

    /// Returns what changed after this time, when the archive was made. `tools/archive` records the lines of `crates.txt` that
    /// the archive was made by. Without a record that is as new as the archive the file's own time counts.
    fn newer_than(&self, made: SystemTime, record: &Path) -> Option<PathBuf> {
        let mut sources = self.sources.iter();
        if let Some(newer) = sources.find_map(|source| newer_than(made, source)) {
            return Some(newer);
        }
        let recorded = modified(record).filter(|time| *time >= made);
        match recorded.and_then(|_| fs::read_to_string(record).ok()) {
            Some(lines) => (lines != self.lines).then(|| self.list.clone()),
            None => newer_than(made, &self.list),
        }
    }
}

/// Returns a file at or below this path that was changed after this time.
fn newer_than(time: SystemTime, path: &Path) -> Option<PathBuf> {
    if path.is_dir() {
        let mut entries = fs::read_dir(path).ok()?.flatten();
        return entries.find_map(|entry| newer_than(time, &entry.path()));
    }
    (modified(path)? > time).then(|| path.to_path_buf())
}

fn modified(path: &Path) -> Option<SystemTime> {
    fs::metadata(path).ok()?.modified().ok()
}

/// Adds the toolchain's own library, `liblibc_c.a`.
fn add_toolchain(links: &mut Links) -> Result<(), String> {
    let named = env::var_os("RATTLE_C_DIR").map(PathBuf::from);
    match named.or_else(of_toolchain) {
        Some(folder) if links.watch(folder.join("liblibc_c.a")) => {
            links.add("libc_c", &folder);
            Ok(())
        }
        _ => Err(
            "no liblibc_c.a: put the command rt on the path, or set RATTLE_C_DIR to the folder c of the toolchain".into(),
        ),
    }
}

/// Returns the folder of the toolchain, by the path of its first page that `rt doc` writes.
fn of_toolchain() -> Option<PathBuf> {
    let answer = Command::new("rt").arg("doc").output().ok()?;
    let page = String::from_utf8(answer.stdout).ok()?;
    Some(Path::new(page.trim()).parent()?.join("c"))
}
