//! What the program does with scripts of version 1, in plain Rust over the locks of its standard
//! library, to compare times and instructions with; built with `--cfg kernel`, over the kernel's own
//! mutex and semaphore (bench/kernel/objects.c). A `version` line is refused. Each space is
//! under a `RwLock`, each table under a `Mutex`. Modes and signals are read. A call with a mode
//! waits as one without it, so no call is busy, and no signal interrupts a wait. `populate` answers
//! by its LEN and PROT, and its pages aren't counted. So scripts with modes or `populate` don't
//! compare the same work.
mod call;
mod locks;
mod parse;
mod report;
mod run;
mod space;
mod table;

use crate::call::{Call, Kind, Mode, Script};
use std::io::{Read, Write};
use std::process::ExitCode;

/// The script that the program makes of this number: eight tasks of 2,000 calls on one space.
fn generated(number: u32) -> Script {
    let mut script = Script {
        names: vec!["m".into()],
        is_space: vec![true],
        tasks: Vec::new(),
    };
    for task in 0..8 {
        let mut x = number.wrapping_add(task);
        let mut next = || {
            x = x.wrapping_mul(1_664_525).wrapping_add(1_013_904_223);
            let (first, second) = (task * 4096 + (x >> 8) % 24, 1 + (x >> 16) % 8);
            let prot = ((x >> 20) % 8) as u8;
            let (kind, second, prot) = match x >> 28 & 7 {
                0 | 1 => (Kind::Map, second, prot),
                2 => (Kind::Unmap, second, 0),
                3 => (Kind::Protect, second, prot),
                _ => (Kind::Fault, 0, 1 << (prot % 3)),
            };
            Call {
                object: 0,
                kind,
                mode: Mode::Plain,
                prot,
                first,
                second,
            }
        };
        script.tasks.push((0..2000).map(|_| next()).collect());
    }
    script
}

fn main() -> ExitCode {
    let words: Vec<String> = std::env::args().skip(1).collect();
    let summary = words.iter().any(|word| word == "--summary");
    let number = words
        .iter()
        .position(|word| word == "--generate")
        .and_then(|at| words.get(at + 1)?.parse().ok());
    let script = match number {
        Some(number) => generated(number),
        None => {
            let mut input = Vec::new();
            if std::io::stdin().lock().read_to_end(&mut input).is_err() {
                return ExitCode::from(4);
            }
            match parse::script(&input) {
                Ok(script) => script,
                Err(line) => {
                    println!("refused {line}");
                    return ExitCode::from(3);
                }
            }
        }
    };
    let objects = run::objects(&script);
    let records = run::run(&script, &objects);
    let text = report::text(&script, objects, &records, summary);
    let mut sink = std::io::stdout().lock();
    match sink.write_all(&text).and_then(|()| sink.flush()) {
        Ok(()) => ExitCode::SUCCESS,
        Err(_) => ExitCode::from(5),
    }
}
