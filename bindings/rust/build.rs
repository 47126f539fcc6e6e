//! Finds the library, or compiles it: from the folder that `FONTCUT_LIB_DIR` names; from `lib` beside this file, which
//! has a folder for each processor; from the C in `gen`, of the crate or of the checkout, by the compiler for C; or by
//! pkg-config.
use std::env;
use std::ffi::OsString;
use std::path::{Path, PathBuf};
use std::process::Command;

/// What cargo says of the target.
fn told(name: &str) -> String {
    env::var(name).unwrap_or_default()
}

/// The folder of this file.
fn here() -> PathBuf {
    told("CARGO_MANIFEST_DIR").into()
}

/// The folder of the static library, where it lies beside this crate or is named.
fn folder() -> Option<PathBuf> {
    let named = env::var_os("FONTCUT_LIB_DIR").map(PathBuf::from);
    let is_linux = told("CARGO_CFG_TARGET_OS") == "linux";
    let beside = is_linux.then(|| here().join("lib").join(told("CARGO_CFG_TARGET_ARCH")));
    let folder = named.clone().or(beside)?;
    let library = folder.join("libfontcut.a");
    println!("cargo:rerun-if-changed={}", library.display());
    let is_there = library.exists();
    if named.is_some() && !is_there {
        fail(format!(
            "FONTCUT_LIB_DIR: there is no {}",
            library.display()
        ));
    }
    is_there.then_some(folder)
}

/// The value of `NAME_TARGET`, where the target's name may have `_` for `-`, or else of `NAME`. What has no target in
/// its name is for the host: a build for another target takes it as `TARGET_NAME`.
fn for_target(name: &str) -> Option<OsString> {
    let target = told("TARGET");
    let general = if told("HOST") == target {
        name.to_owned()
    } else {
        format!("TARGET_{name}")
    };
    let names = [
        format!("{name}_{target}"),
        format!("{name}_{}", target.replace('-', "_")),
        general,
    ];
    names.iter().find_map(|name| {
        println!("cargo:rerun-if-env-changed={name}");
        env::var_os(name).filter(|value| !value.is_empty())
    })
}

/// What the names of the compiler and the archiver begin with: nothing on the host, else the target as GNU's tools
/// name it, as `aarch64-linux-gnu-` for `aarch64-unknown-linux-gnu`.
fn prefix() -> String {
    let target = told("TARGET");
    if told("HOST") == target {
        return String::new();
    }
    let parts: Vec<&str> = target.split('-').collect();
    match parts.as_slice() {
        [processor, _, "windows", _] => format!("{processor}-w64-mingw32-"),
        [processor, _, system, abi] => {
            let processor = processor.replace("riscv64gc", "riscv64");
            format!("{processor}-{system}-{abi}-")
        }
        _ => format!("{target}-"),
    }
}

/// A compiler or an archiver with its first words: the one that is named, or the usual one for the target.
fn tool(variable: &str, on_host: &str, elsewhere: &str) -> Command {
    let prefix = prefix();
    let usual = if prefix.is_empty() {
        on_host.to_owned()
    } else {
        prefix + elsewhere
    };
    let named = for_target(variable).map_or(usual, |it| it.to_string_lossy().into_owned());
    let mut words = named.split_whitespace();
    let mut command = Command::new(words.next().unwrap_or(on_host));
    command.args(words);
    command
}

/// Says what is wrong, and ends.
fn fail(text: String) -> ! {
    eprintln!("libfontcut: {text}");
    std::process::exit(1)
}

/// Runs a command, which has to end well. A variable may name another one.
fn run(mut command: Command, variable: &str) {
    let name = command.get_program().to_owned();
    match command.status() {
        Ok(status) if status.success() => {}
        Ok(status) => fail(format!("{name:?} failed: {status}")),
        Err(why) => fail(format!(
            "cannot run {name:?}: {why}; {variable} may name another one"
        )),
    }
}

/// Whether the compiler takes a flag.
fn takes(flag: &str) -> bool {
    let mut compiler = tool("CC", "cc", "gcc");
    compiler.args(["-Werror", flag, "-E", "-x", "c", "-"]);
    compiler.stdin(std::process::Stdio::null());
    compiler.output().map_or(false, |it| it.status.success())
}

/// The flags of tools/compile_generated, with the level of optimization that cargo asks for, where that is less.
fn flags() -> Vec<String> {
    let level = match told("OPT_LEVEL").as_str() {
        "0" => "-O0",
        "1" => "-O1",
        "s" | "z" => "-Os",
        _ => "-O2",
    };
    let mut flags = vec!["-std=gnu11", level, "-fno-strict-overflow"];
    flags.extend(["-ffunction-sections", "-fvisibility=hidden", "-w"]);
    if told("CARGO_CFG_TARGET_OS") != "windows" {
        flags.push("-fPIC");
    }
    if takes("-fstack-clash-protection") {
        flags.push("-fstack-clash-protection");
    }
    if told("CARGO_CFG_TARGET_ARCH") == "x86_64" && takes("-march=x86-64-v2") {
        flags.push("-march=x86-64-v2");
    }
    let named = for_target("CFLAGS").unwrap_or_default();
    let named = named.to_string_lossy();
    let all = flags.into_iter().chain(named.split_whitespace());
    all.map(str::to_owned).collect()
}

/// The folder above `gen`: this crate's, where a release has put it there, or the checkout's, if `gen` was made of its
/// sources. Where it was not, a line says so.
fn sources() -> Option<PathBuf> {
    let own = here();
    if own.join("gen/libfontcut.c").exists() {
        return Some(own);
    }
    let top = own.join("../..");
    let check = top.join("tools/compile_generated");
    let sums = std::fs::read_to_string(top.join("gen/SUMS")).ok()?;
    for line in sums.lines().filter(|line| !line.starts_with('#')) {
        let path = line.rsplit("  ").next().map(|path| top.join(path));
        println!(
            "cargo:rerun-if-changed={}",
            path.unwrap_or_default().display()
        );
    }
    let told = Command::new("sh").arg(check).arg("check").output().ok()?;
    for line in String::from_utf8_lossy(&told.stderr).lines() {
        println!("cargo:warning={line}");
    }
    told.status.success().then_some(top)
}

/// Compiles the library from the C in a folder, and returns where it lies.
fn compiled(top: &Path) -> PathBuf {
    let out = PathBuf::from(told("OUT_DIR"));
    let (source, object) = (top.join("gen/libfontcut.c"), out.join("libfontcut.o"));
    println!("cargo:rerun-if-changed={}", source.display());
    let mut compiler = tool("CC", "cc", "gcc");
    compiler.args(flags()).arg("-I").arg(top.join("include"));
    compiler.arg("-c").arg(source).arg("-o").arg(&object);
    run(compiler, "CC");
    let archive = out.join("libfontcut.a");
    let _ = std::fs::remove_file(&archive);
    let mut archiver = tool("AR", "ar", "ar");
    archiver.arg("rcs").arg(archive).arg(object);
    run(archiver, "AR");
    out
}

/// The folders in which pkg-config says that the library lies; none where it does not know it.
fn by_pkg_config() -> Option<Vec<String>> {
    let asked = Command::new("pkg-config")
        .args(["--libs", "fontcut"])
        .output()
        .ok()?;
    let words = String::from_utf8(asked.stdout)
        .ok()
        .filter(|_| asked.status.success())?;
    Some(
        words
            .split_whitespace()
            .filter_map(|word| word.strip_prefix("-L"))
            .map(str::to_owned)
            .collect(),
    )
}

fn main() {
    println!("cargo:rerun-if-changed=build.rs");
    println!("cargo:rerun-if-env-changed=FONTCUT_LIB_DIR");
    println!("cargo:rerun-if-env-changed=PKG_CONFIG_PATH");
    if let Some(folder) = folder().or_else(|| sources().map(|top| compiled(&top))) {
        println!("cargo:rustc-link-search=native={}", folder.display());
        println!("cargo:rustc-link-lib=static=fontcut");
        return;
    }
    let lacking = "set FONTCUT_LIB_DIR to the folder of libfontcut.a, or install the library";
    let folders = by_pkg_config().unwrap_or_else(|| fail(lacking.to_owned()));
    for folder in folders {
        println!("cargo:rustc-link-search=native={folder}");
    }
    println!("cargo:rustc-link-lib=fontcut");
}
