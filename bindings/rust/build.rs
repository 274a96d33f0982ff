//! Links the static library that `bindings/build` makes; or compiles the C file, where there is none.

use std::env;
use std::path::{Path, PathBuf};
use std::process::{exit, Command};

/// Ends the build with a reason that its reader can act on.
fn fail(reason: &str) -> ! {
    println!("cargo:warning={reason}");
    eprintln!("{reason}");
    exit(1)
}

/// A variable of the environment, which changes what is built.
fn variable(name: &str) -> Option<String> {
    println!("cargo:rerun-if-env-changed={name}");
    env::var(name).ok().filter(|value| !value.is_empty())
}

/// A variable of Cargo's.
fn of_cargo(name: &str) -> String {
    env::var(name).unwrap_or_default()
}

/// A variable such as `CC` for the target: `CC_TARGET`, in which `-` may be written as `_`, or else `CC`.
fn for_target(name: &str) -> Option<String> {
    let target = of_cargo("TARGET");
    variable(&format!("{name}_{target}"))
        .or_else(|| variable(&format!("{name}_{}", target.replace('-', "_"))))
        .or_else(|| variable(name))
}

/// The folder that `CVSS_LIBRARY_FOLDER` names, which has to be absolute: a build script runs in
/// another folder than cargo does.
fn named_folder() -> Option<PathBuf> {
    let folder = PathBuf::from(env::var_os("CVSS_LIBRARY_FOLDER")?);
    let shown = folder.display();
    if !folder.is_absolute() {
        fail(&format!(
            "CVSS_LIBRARY_FOLDER has to be an absolute path, and is `{shown}`"
        ));
    }
    if !folder.join("libcvss.a").is_file() {
        fail(&format!(
            "{shown} has no libcvss.a. CVSS_LIBRARY_FOLDER is the absolute path of the folder lib of the \
             unpacked archive in dist/ of the repository. Without this variable the library is \
             compiled from one C file"
        ));
    }
    Some(folder)
}

/// The folder of the library beside this package, which is for Linux on x86-64 or ARM64: that of the machine.
fn built_folder() -> Option<PathBuf> {
    let target = of_cargo("TARGET");
    let folder = Path::new(env!("CARGO_MANIFEST_DIR")).join("../out");
    let library = folder.join("libcvss.a");
    println!("cargo:rerun-if-changed={}", library.display());
    let is_for_target = target == of_cargo("HOST")
        && target.contains("-linux-")
        && (target.starts_with("x86_64-") || target.starts_with("aarch64-"));
    (is_for_target && library.is_file()).then_some(folder)
}

/// The C compiler for the target, and the program that makes static libraries.
fn tools() -> (String, String) {
    let target = of_cargo("TARGET");
    let prefix = match target.as_str() {
        _ if target == of_cargo("HOST") => "",
        "x86_64-unknown-linux-musl" => "musl-",
        "x86_64-pc-windows-gnu" => "x86_64-w64-mingw32-",
        "aarch64-unknown-linux-gnu" => "aarch64-linux-gnu-",
        _ => "",
    };
    let compiler = if prefix.is_empty() {
        "cc".into()
    } else {
        format!("{prefix}gcc")
    };
    let archiver = if prefix == "musl-" {
        "ar".into()
    } else {
        format!("{prefix}ar")
    };
    (
        for_target("CC").unwrap_or(compiler),
        for_target("AR").unwrap_or(archiver),
    )
}

/// Runs a command, which may have arguments of its own.
fn run(command: &str, arguments: &[&str]) {
    let mut words = command.split_whitespace();
    let program = words.next().unwrap_or_default();
    let status = Command::new(program).args(words).args(arguments).status();
    if !status.is_ok_and(|status| status.success()) {
        fail(&format!(
            "`{command}` does not compile the library. Install a C compiler, or set CC and AR to one for {} that \
             has the options of gcc, such as clang",
            of_cargo("TARGET")
        ));
    }
}

/// Compiles the C file into a static library, and returns its folder.
fn compiled_folder() -> PathBuf {
    let package = Path::new(env!("CARGO_MANIFEST_DIR"));
    // a package that is made elsewhere has the file and the header in its folder
    let own = package.join("cvss.c");
    let source = if own.is_file() {
        own
    } else {
        package.join("../onefile/cvss.c")
    };
    println!("cargo:rerun-if-changed={}", source.display());
    let folder = PathBuf::from(env::var_os("OUT_DIR").unwrap_or_default());
    let (object, library) = (folder.join("cvss.o"), folder.join("libcvss.a"));
    let shown = |path: &Path| path.display().to_string();
    let (compiler, archiver) = tools();
    let flags = for_target("CFLAGS").unwrap_or_default();
    let includes = [
        format!("-I{}", shown(package)),
        format!("-I{}", shown(&package.join("../c"))),
    ];
    let (source, object, library) = (shown(&source), shown(&object), shown(&library));
    let mut arguments = vec!["-std=c99", "-O2"];
    if !of_cargo("TARGET").contains("-windows-") {
        arguments.push("-fPIC");
    }
    arguments.extend(flags.split_whitespace());
    arguments.extend(includes.iter().map(String::as_str));
    arguments.extend(["-c", &source, "-o", &object]);
    run(&compiler, &arguments);
    run(&archiver, &["crs", &library, &object]);
    folder
}

fn main() {
    println!("cargo:rerun-if-env-changed=CVSS_LIBRARY_FOLDER");
    let folder = named_folder()
        .or_else(built_folder)
        .unwrap_or_else(compiled_folder);
    println!("cargo:rustc-link-search=native={}", folder.display());
    println!("cargo:rustc-link-lib=static=cvss");
}
