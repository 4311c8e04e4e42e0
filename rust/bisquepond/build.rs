//! Finds the archive of libhbc_c, or has it built, or says what is missing.

use std::env;
use std::fs::{File, OpenOptions};
use std::io::{BufRead, BufReader, Write};
use std::path::{Path, PathBuf};
use std::process::{Command, Stdio};

fn main() {
    println!("cargo::rerun-if-env-changed=HBC_C_ARCHIVE");
    println!("cargo::rerun-if-changed=build.rs");
    match archive() {
        Ok(archive) => link(&archive),
        Err(missing) => missing
            .lines()
            .for_each(|line| println!("cargo::error={line}")),
    }
}

fn link(archive: &Path) {
    let (folder, name) = (archive.parent().unwrap(), archive.file_name().unwrap());
    println!("cargo::rerun-if-changed={}", archive.display());
    println!("cargo::rustc-link-search=native={}", folder.display());
    println!(
        "cargo::rustc-link-lib=static:+verbatim={}",
        name.to_string_lossy()
    );
}

/// The archive that HBC_C_ARCHIVE names; else the one that `rust/archive` makes, which is run if it is not there yet.
fn archive() -> Result<PathBuf, String> {
    if let Some(named) = env::var_os("HBC_C_ARCHIVE") {
        return named_archive(PathBuf::from(named));
    }
    let of = |part: &str| env::var(format!("CARGO_CFG_TARGET_{part}")).unwrap_or_default();
    let (machine, system) = (of("ARCH"), of("OS"));
    if (machine.as_str(), system.as_str()) != ("x86_64", "linux") {
        return Err(format!(
            "rust/archive makes an archive for x86-64 Linux, not for {machine} {system}. HBC_C_ARCHIVE can name one for it."
        ));
    }
    let package = PathBuf::from(env::var_os("CARGO_MANIFEST_DIR").unwrap());
    let repository = package.ancestors().nth(2).unwrap();
    let archive = repository.join("target/staticlib/libhbc_c.a");
    if !archive.is_file() {
        let said = made(&repository.join("rust/archive"));
        if !archive.is_file() {
            return Err(format!(
                "there is no {}, and rust/archive did not make it: it needs the command 'rt'. HBC_C_ARCHIVE can name one that is there.\n{said}",
                archive.display()
            ));
        }
    }
    Ok(archive)
}

fn named_archive(named: PathBuf) -> Result<PathBuf, String> {
    let shown = named.display();
    if !named.is_absolute() {
        // Where cargo was called is not known here, so that a relative path could be read in more than one way.
        return Err(format!(
            "HBC_C_ARCHIVE must be an absolute path, and {shown} is not: $PWD/{shown}, perhaps"
        ));
    }
    if !named.is_file() {
        return Err(format!("HBC_C_ARCHIVE: there is no file {shown}"));
    }
    Ok(named)
}

/// Runs the script that makes the archive, and answers what it said. Cargo shows nothing of it before it has ended, so
/// that what is proved is told to the terminal, if there is one.
fn made(script: &Path) -> String {
    let mut terminal: Option<File> = OpenOptions::new().write(true).open("/dev/tty").ok();
    let mut tell = |line: &str| {
        if let Some(terminal) = &mut terminal {
            let _ = writeln!(terminal, "bisquepond: {line}");
        }
    };
    tell("there is no archive yet: it is proved and made now, which takes some minutes");
    let run = Command::new(script)
        .stdin(Stdio::null())
        .stdout(Stdio::null())
        .stderr(Stdio::piped())
        .spawn();
    let mut run = match run {
        Ok(run) => run,
        Err(why) => return format!("{}: {why}", script.display()),
    };
    let mut said = Vec::new();
    for line in BufReader::new(run.stderr.take().unwrap())
        .lines()
        .map_while(Result::ok)
    {
        tell(&line);
        said.push(line);
    }
    let ended = run.wait().map(|status| status.to_string());
    said.push(format!("rust/archive: {}", ended.unwrap_or_default()));
    said.join("\n")
}
