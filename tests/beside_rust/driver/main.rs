//! The Rust beside the port: `driver run` reads a call script and prints for each call what the Rust says of it; `driver gen SEED CALLS
//! FILE` writes a script of its own to the file and prints the same of it; `driver sample SEED BYTES FILE` keeps only calls that the
//! Rust answered; `driver raw` prints what the Rust itself does, no rule asked; `driver cuts` stops the script's last call after each
//! number of its stores; `driver timed ROUNDS` times the calls, `driver contents FILES ROUNDS` reads and writes, and
//! `driver ranges ROUNDS` a range put in and taken out.
//!
//! A sum that is not known is a dash.
//!
//!     = LINE          the Rust's answer and the sums: the port prints this line
//!     =lookup_follow LINE  the same of a walk, and the Rust's `lookup_follow` ends there too
//!     ~RULE LINE      left out by that rule; the documents' answer
//!     ?RULE NAME SUMS left out by that rule; no answer is said, but a refusal keeps these sums
//!     ! TEXT          the Rust broke off where no rule foresaw it; the run ends
mod cuts;
mod device;
mod gen;
mod script;
mod table;
mod timed;
mod walk;
mod world;

use script::{Command, Next, Script};
use std::io::{Read, Write};
use world::{shown, Line, World};

fn input() -> std::io::Result<Vec<u8>> {
    let mut bytes = vec![];
    std::io::stdin().read_to_end(&mut bytes)?;
    Ok(bytes)
}

fn run(out: &mut impl Write) -> std::io::Result<()> {
    let bytes = input()?;
    let mut script = Script(&bytes);
    let mut world = World::new();
    loop {
        match script.next() {
            Next::End => return Ok(()),
            Next::Bad => return writeln!(out, "= bad script"),
            Next::Do(Command::Call(who, call)) => {
                let line = world.call(who, &call);
                writeln!(out, "{}", shown(&line))?;
                if let Line::Lost(_) = line {
                    return Ok(());
                }
            }
            Next::Do(command) => world.outside(&command),
        }
    }
}

/// Prints as it goes: a forked trial has words of its own to say.
fn raw() -> std::io::Result<()> {
    std::panic::set_hook(Box::new(|panic| {
        let text = panic.payload();
        let text = text.downcast_ref::<String>().map(|s| s.as_str()).or(text.downcast_ref::<&str>().copied());
        print!(" (panic: {})", text.unwrap_or("?"));
        let _ = std::io::stdout().flush();
    }));
    let bytes = input()?;
    let mut script = Script(&bytes);
    let mut world = World::new();
    while let Next::Do(command) = script.next() {
        match command {
            Command::Call(who, call) => println!("{}", world.raw(who, &call)),
            outside => world.outside(&outside),
        }
    }
    Ok(())
}

fn gen(out: &mut impl Write, made: gen::Sequence, file: &str) -> std::io::Result<()> {
    std::fs::write(file, &made.script)?;
    made.lines.iter().try_for_each(|line| writeln!(out, "{}", shown(line)))
}

fn number(word: &str) -> u64 {
    word.parse().unwrap_or_else(|_| {
        eprintln!("driver: {word} is no number");
        std::process::exit(2)
    })
}

fn main() -> std::io::Result<()> {
    std::panic::set_hook(Box::new(|_| ()));
    let words: Vec<String> = std::env::args().skip(1).collect();
    let words: Vec<&str> = words.iter().map(|w| w.as_str()).collect();
    let mut out = std::io::BufWriter::new(std::io::stdout().lock());
    match words[..] {
        ["run"] => run(&mut out)?,
        ["raw"] => {
            drop(out);
            raw()?;
            std::process::exit(0)
        }
        ["cuts"] => {
            drop(out);
            cuts::cuts(&input()?);
            std::process::exit(0)
        }
        ["timed", rounds] => timed::timed(&mut out, &input()?, number(rounds))?,
        ["ranges", rounds] => timed::ranges(&mut out, number(rounds))?,
        ["contents", files, rounds] => timed::contents(&mut out, number(files), number(rounds))?,
        ["gen", seed, calls, file] => gen(&mut out, gen::sequence(number(seed), number(calls) as usize, None), file)?,
        ["sample", seed, bytes, file] => gen(&mut out, gen::sample(number(seed), number(bytes) as usize), file)?,
        _ => {
            eprintln!("driver run < SCRIPT\ndriver raw < SCRIPT\ndriver cuts < SCRIPT\ndriver timed ROUNDS < SCRIPT\ndriver contents FILES ROUNDS\ndriver ranges ROUNDS\ndriver gen SEED CALLS FILE\ndriver sample SEED BYTES FILE");
            std::process::exit(2)
        }
    }
    out.flush()?;
    // The image is left as it is: nothing is dropped.
    std::process::exit(0)
}
