//! Finds the crate's source and mounts it.
//!
//! boot_loader.rs and firmware_updater/blocking.rs are compiled from where they lie, unchanged. lib.rs and
//! firmware_updater/mod.rs name files that aren't at hand (README.md, fmt.rs, asynch.rs, test_flash.rs), so
//! they are read here, the lines that name those are left out or given a path, and the rest is written to the
//! build's own folder. A line that is expected and isn't there stops the build: then the source is another
//! one, and this file has to be looked at again.
//!
//! mem_flash.rs is altered in the same way, in its write, and in its erase to follow the erase value: that copy serves
//! the benchmark, where no budget is used. The comparison runs on src/mem_flash.rs, whose areas have their length at
//! run time.
//!
//! Two packages run this script, `original` and `original_zero`; which one it is decides the text's own switch alone.

use std::path::{Path, PathBuf};
use std::process::exit;
use std::{env, fs};

/// What becomes of one line of the source.
enum Rule<'a> {
    /// the line is left out
    Drop(&'a str),
    /// every line that starts so is left out
    DropAll(&'a str),
    /// a module that is compiled from another place
    Mount(&'a str, PathBuf),
    /// every line that starts so, apart from spaces, gives way to another
    Replace(&'a str, &'a str),
}

fn main() {
    let source = source_folder();
    let out = PathBuf::from(env::var("OUT_DIR").expect("cargo sets OUT_DIR"));
    let package = PathBuf::from(env::var("CARGO_MANIFEST_DIR").expect("cargo sets CARGO_MANIFEST_DIR"));
    let absent = package.join("../original/src/absent");

    let updater = out.join("firmware_updater.rs");
    let root_rules = [
        Rule::DropAll("#!["),
        Rule::DropAll("//!"),
        Rule::DropAll("#[cfg(test)]"),
        Rule::Drop("mod mem_flash;"),
        Rule::Drop("mod test_flash;"),
        Rule::Drop("mod digest_adapters;"),
        Rule::Mount("mod fmt;", absent.join("fmt.rs")),
        Rule::Mount("mod boot_loader;", source.join("boot_loader.rs")),
        Rule::Mount("mod firmware_updater;", updater.clone()),
    ];
    let updater_rules = [
        Rule::Mount("mod asynch;", absent.join("asynch.rs")),
        Rule::Mount("mod blocking;", source.join("firmware_updater/blocking.rs")),
    ];
    let flash_rules = [
        Rule::DropAll("#!["),
        // its random fill wants a registry crate
        Rule::Replace("#[cfg(test)]", "#[cfg(any())]"),
        Rule::Replace("assert_eq!(0xFF, *mem_byte", "let _ = offset;"),
        Rule::Replace(
            "*mem_byte = *new_byte;",
            "*mem_byte = crate::mem_flash::written(*mem_byte, *new_byte);",
        ),
        Rule::Replace("self.mem[i] = 0xFF;", "self.mem[i] = crate::STATE_ERASE_VALUE;"),
    ];
    rewrite(&source.join("mem_flash.rs"), &flash_rules, &out.join("crate_mem_flash.rs"));
    rewrite(&source.join("lib.rs"), &root_rules, &out.join("embassy_boot.rs"));
    rewrite(&source.join("firmware_updater/mod.rs"), &updater_rules, &updater);

    for file in ["boot_loader.rs", "firmware_updater/blocking.rs"] {
        println!("cargo::rerun-if-changed={}", source.join(file).display());
    }
    println!("cargo::rerun-if-changed={}", absent.display());
    println!("cargo::rustc-env=EMBASSY_BOOT_SRC_FOUND={}", source.display());
}

/// The folder that holds lib.rs: EMBASSY_BOOT_SRC, or beside the repository; `src` inside is found.
fn source_folder() -> PathBuf {
    println!("cargo::rerun-if-env-changed=EMBASSY_BOOT_SRC");
    let given = match env::var_os("EMBASSY_BOOT_SRC") {
        Some(path) => PathBuf::from(path),
        None => Path::new(&env::var("CARGO_MANIFEST_DIR").expect("cargo sets it"))
            .join("../../../shared/docs/src"),
    };
    [given.join("src"), given.clone()]
        .into_iter()
        .find(|folder| folder.join("lib.rs").is_file())
        .and_then(|folder| folder.canonicalize().ok())
        .unwrap_or_else(|| {
            say_no(&format!(
                "{} has no src/lib.rs: set EMBASSY_BOOT_SRC to the folder that holds the src/ of embassy-boot 0.7.0",
                given.display()
            ))
        })
}

/// Stops the build with one line.
fn say_no(why: &str) -> ! {
    println!("cargo::error={why}");
    // cargo stops at the line; at another status it would print all that this script said as well
    exit(0);
}

fn rewrite(from: &Path, rules: &[Rule], to: &Path) {
    println!("cargo::rerun-if-changed={}", from.display());
    let text = fs::read_to_string(from).unwrap_or_else(|e| panic!("{}: {e}", from.display()));
    let mut used = vec![false; rules.len()];
    let mut result = String::new();
    for line in text.lines() {
        match rules.iter().position(|rule| rule.meets(line)) {
            None => result.push_str(line),
            Some(i) => {
                used[i] = true;
                match &rules[i] {
                    Rule::Mount(module, path) => {
                        result.push_str(&format!("#[path = {:?}] {module}", path.display().to_string()))
                    }
                    Rule::Replace(_, with) => result.push_str(with),
                    Rule::Drop(_) | Rule::DropAll(_) => {}
                }
            }
        }
        result.push('\n');
    }
    for (rule, used) in rules.iter().zip(used) {
        assert!(used, "{}: no line {:?}", from.display(), rule.line());
    }
    fs::write(to, result).unwrap_or_else(|e| panic!("{}: {e}", to.display()));
}

impl Rule<'_> {
    fn line(&self) -> &str {
        match self {
            Rule::Drop(line) | Rule::DropAll(line) | Rule::Mount(line, _) | Rule::Replace(line, _) => line,
        }
    }

    fn meets(&self, line: &str) -> bool {
        match self {
            Rule::DropAll(start) => line.starts_with(start),
            Rule::Replace(start, _) => line.trim_start().starts_with(start),
            _ => line == self.line(),
        }
    }
}
