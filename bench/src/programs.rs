//! `cardtool picture` beside `srec_cat` (the package srecord), each from its start to its end on the wall, on the same files. Both
//! write their regions, in memory where the system has a file system there; ours sees its file onto the device and
//! computes its checksum besides. Nothing is shown where `srec_cat` is not installed.

use crate::texts::Text;
use crate::watch::Spread;
use std::fs;
use std::io;
use std::path::Path;
use std::process::{Command, Stdio};
use std::time::Instant;

const STARTS: usize = 5;
const CARDTOOL: &str = "target/bin/cardtool";

/// Where the programs read and write.
fn folder() -> &'static str {
    if Path::new("/dev/shm").is_dir() {
        "/dev/shm"
    } else {
        "target"
    }
}

/// Best and median of a program's runs, for each byte of its input.
fn time_program(line: &str, bytes: usize) -> io::Result<Spread> {
    let words: Vec<&str> = line.split(' ').collect();
    let mut times = Vec::new();
    for _ in 0..STARTS {
        let mut program = Command::new(words[0]);
        program.args(&words[1..]).stdin(Stdio::null());
        program.stdout(Stdio::null()).stderr(Stdio::null());
        let start = Instant::now();
        program.status()?;
        times.push(start.elapsed().as_nanos() as f64 / bytes as f64);
    }
    Ok(Spread::of(&times))
}

fn show_text(text: &Text) -> io::Result<()> {
    let file = format!("{}/zlatopysk_bench.txt", folder());
    let region = format!("{}/zlatopysk_bench.bin", folder());
    fs::write(&file, &text.bytes)?;
    let bytes = text.bytes.len();
    let ours = time_program(
        &format!("{CARDTOOL} picture {file} {region} --force"),
        bytes,
    )?;
    // No -fill: over scattered segments that filter alone takes a minute.
    let theirs = format!("srec_cat -disable-sequence-warning {file} -ti_txt -o {region} -binary");
    let theirs = time_program(&theirs, bytes)?;
    fs::remove_file(&file)?;
    // A text that both refuse leaves no region.
    let _ = fs::remove_file(&region);
    print!("{:<22} {bytes:>8}", text.name);
    for spread in [ours, theirs] {
        print!("  {:>7.2} {:>7.2}", spread.best, spread.median);
    }
    println!();
    Ok(())
}

pub fn show(texts: &[&Text]) {
    let asked = Command::new("srec_cat").arg("--version").output();
    if asked.is_err() {
        return;
    }
    if !Path::new(CARDTOOL).exists() {
        println!(
            "\n{CARDTOOL} is not there, so it is not timed beside srec_cat: ./cardtool builds it"
        );
        return;
    }
    println!("\nprograms, ns per byte, best and median of {STARTS}");
    println!(
        "{:<32}  cardtool picture srec_cat",
        "text                      bytes"
    );
    for text in texts {
        if let Err(why) = show_text(text) {
            println!("{}: {why}", text.name);
        }
    }
}
