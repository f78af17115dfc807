//! The histories of the objects, and the summary.
use crate::call::{Call, Kind, Mode, Record, Reply, Script};
use crate::run::Object;
use crate::space::Area;
use std::io::Write;

/// Writes a number by hand, because std's formatting takes longer: with `write!` a run of
/// `--generate 7` takes 24 million instructions in place of 14 million.
fn put(out: &mut Vec<u8>, number: u32) {
    let (mut digits, mut at, mut rest) = ([0; 10], 10, number);
    loop {
        at -= 1;
        digits[at] = b'0' + (rest % 10) as u8;
        rest /= 10;
        if rest == 0 {
            break;
        }
    }
    out.extend_from_slice(&digits[at..]);
}

fn put_prot(out: &mut Vec<u8>, prot: u8) {
    for (bit, letter) in b"rwx".iter().enumerate() {
        out.push(if prot >> bit & 1 != 0 { *letter } else { b'-' });
    }
}

fn put_call(out: &mut Vec<u8>, call: &Call) {
    match call.mode {
        Mode::Plain => {}
        Mode::Int => out.extend_from_slice(b"int "),
        Mode::Try => out.extend_from_slice(b"try "),
    }
    let verb: &[u8] = match call.kind {
        Kind::Map => b"map ",
        Kind::MapAny => b"map any ",
        Kind::MapNew => b"mapnew ",
        Kind::Unmap => b"unmap ",
        Kind::Protect => b"protect ",
        Kind::Populate => b"populate ",
        Kind::Fault => b"fault ",
        Kind::Open => b"open ",
        Kind::Close => b"close ",
        Kind::Dup => b"dup ",
        Kind::Dup2 => b"dup2 ",
        Kind::Get => b"get ",
        Kind::Signal => b"signal ",
    };
    out.extend_from_slice(verb);
    put(out, call.first);
    if matches!(
        call.kind,
        Kind::Map | Kind::MapNew | Kind::Unmap | Kind::Protect | Kind::Populate | Kind::Dup2
    ) {
        out.push(b' ');
        put(out, call.second);
    }
    if matches!(
        call.kind,
        Kind::Map | Kind::MapAny | Kind::MapNew | Kind::Protect | Kind::Populate
    ) {
        out.push(b' ');
        put_prot(out, call.prot);
    }
    if call.kind == Kind::Fault {
        out.extend_from_slice(match call.prot {
            1 => b" r",
            2 => b" w",
            _ => b" x",
        });
    }
}

fn put_reply(out: &mut Vec<u8>, reply: Reply) {
    let word: &[u8] = match reply {
        Reply::Num(number) => return put(out, number),
        Reply::Good => b"ok",
        Reply::BadF => b"EBADF",
        Reply::NoMem => b"ENOMEM",
        Reply::Exist => b"EEXIST",
        Reply::Inval => b"EINVAL",
        Reply::MFile => b"EMFILE",
        Reply::MapErr => b"maperr",
        Reply::AccErr => b"accerr",
        Reply::Sent => b"sent",
    };
    out.extend_from_slice(word);
}

/// What an object leaves: its log, and its areas or its open descriptors.
struct Left {
    log: Vec<(u8, u32)>,
    areas: Vec<Area>,
    files: Vec<(u32, u32)>,
}

fn left(object: Object) -> Left {
    match object {
        Object::Space(lock) => {
            let space = lock.into_inner().unwrap();
            Left {
                log: space.log,
                areas: space.areas,
                files: Vec::new(),
            }
        }
        Object::Table(lock) => {
            let table = lock.into_inner().unwrap();
            let open =
                |(fd, file): (usize, &Option<u16>)| file.map(|file| (fd as u32, u32::from(file)));
            Left {
                log: table.log,
                areas: Vec::new(),
                files: table.files.iter().enumerate().filter_map(open).collect(),
            }
        }
    }
}

fn put_line(out: &mut Vec<u8>, script: &Script, records: &[Vec<Record>], task: u8, number: u32) {
    let (row, place) = (task as usize, number as usize);
    put(out, u32::from(task));
    out.push(b'.');
    put(out, number);
    out.push(b' ');
    put_call(out, &script.tasks[row][place]);
    out.extend_from_slice(b" = ");
    put_reply(out, records[row][place].reply);
    out.push(b'\n');
}

fn put_left(out: &mut Vec<u8>, left: &Left) {
    writeln!(out, "left {}", left.areas.len() + left.files.len()).unwrap();
    for area in &left.areas {
        put(out, area.start);
        out.push(b'-');
        put(out, area.end);
        out.push(b' ');
        put_prot(out, area.prot);
        out.push(b'\n');
    }
    for &(fd, file) in &left.files {
        put(out, fd);
        out.push(b' ');
        put(out, file);
        out.push(b'\n');
    }
}

/// Calls that aren't logged: how many calls were logged before each, its task and its number.
type Others = Vec<(u32, u8, u32)>;

/// Of each object how many calls it had, how many were refused, and its calls that aren't logged.
fn count(script: &Script, records: &[Vec<Record>]) -> Vec<(u32, u32, Others)> {
    let mut counts = vec![(0, 0, Others::new()); script.names.len()];
    for (task, (calls, records)) in script.tasks.iter().zip(records).enumerate() {
        for (number, (call, record)) in calls.iter().zip(records).enumerate() {
            let (all, refused, others) = &mut counts[call.object as usize];
            *all += 1;
            *refused += u32::from(!matches!(
                record.reply,
                Reply::Good | Reply::Num(_) | Reply::Sent
            ));
            if !call.kind.is_logged() {
                others.push((record.logged, task as u8, number as u32));
            }
        }
    }
    counts
}

/// The text of a run, or its summary.
pub fn text(
    script: &Script,
    objects: Vec<Object>,
    records: &[Vec<Record>],
    summary: bool,
) -> Vec<u8> {
    let calls: usize = script.tasks.iter().map(Vec::len).sum();
    let mut out = Vec::with_capacity(if summary { 1024 } else { calls * 40 + 65_536 });
    let counts = count(script, records);
    for (number, (object, (all, refused, mut others))) in
        objects.into_iter().zip(counts).enumerate()
    {
        let left = left(object);
        let name = &script.names[number];
        if summary {
            let states = left.areas.len() + left.files.len();
            writeln!(
                out,
                "{name}: {all} calls, {} logged, {refused} refused, {states} left",
                left.log.len()
            )
            .unwrap();
            continue;
        }
        writeln!(
            out,
            "{} {name}",
            if script.is_space[number] {
                "space"
            } else {
                "table"
            }
        )
        .unwrap();
        others.sort_by_key(|other| other.0);
        let mut others = others.into_iter().peekable();
        for place in 0..=left.log.len() {
            while let Some((_, task, number)) = others.next_if(|other| other.0 as usize <= place) {
                put_line(&mut out, script, records, task, number);
            }
            if let Some(&(task, number)) = left.log.get(place) {
                put_line(&mut out, script, records, task, number);
            }
        }
        put_left(&mut out, &left);
    }
    out
}
