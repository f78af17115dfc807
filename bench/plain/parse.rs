//! Reads a script.
use crate::call::{Call, Kind, Mode, Script};

/// A number without leading zeros, below 2^32.
pub fn number(word: &[u8]) -> Option<u32> {
    if word.is_empty() || word.len() > 10 || (word[0] == b'0' && word.len() > 1) {
        return None;
    }
    let mut number = 0u64;
    for &byte in word {
        if !byte.is_ascii_digit() {
            return None;
        }
        number = number * 10 + u64::from(byte - b'0');
    }
    number.try_into().ok()
}

fn prot(word: &[u8]) -> Option<u8> {
    let &[r, w, x] = word else { return None };
    let bit = |byte: u8, letter: u8, bit: u8| match byte {
        b'-' => Some(0),
        _ if byte == letter => Some(bit),
        _ => None,
    };
    Some(bit(r, b'r', 1)? | bit(w, b'w', 2)? | bit(x, b'x', 4)?)
}

fn is_name(word: &[u8]) -> bool {
    word.len() <= 16
        && word[0].is_ascii_lowercase()
        && word
            .iter()
            .all(|b| b.is_ascii_lowercase() || b.is_ascii_digit() || *b == b'_')
        && !matches!(
            word,
            b"space" | b"table" | b"task" | b"version" | b"int" | b"try"
        )
}

fn kind(is_space: bool, verb: &[u8], first: Option<&&[u8]>) -> Option<Kind> {
    Some(match (is_space, verb) {
        (true, b"map") if first == Some(&&b"any"[..]) => Kind::MapAny,
        (true, b"map") => Kind::Map,
        (true, b"mapnew") => Kind::MapNew,
        (true, b"unmap") => Kind::Unmap,
        (true, b"protect") => Kind::Protect,
        (true, b"populate") => Kind::Populate,
        (true, b"fault") => Kind::Fault,
        (false, b"open") => Kind::Open,
        (false, b"close") => Kind::Close,
        (false, b"dup") => Kind::Dup,
        (false, b"dup2") => Kind::Dup2,
        (false, b"get") => Kind::Get,
        (_, b"signal") => Kind::Signal,
        _ => return None,
    })
}

/// The two numbers and the protection or the access of a call.
fn arguments(kind: Kind, words: &[&[u8]]) -> Option<(u32, u32, u8)> {
    match (kind, words) {
        (Kind::MapAny, &[_, len, word]) => Some((number(len)?, 0, prot(word)?)),
        (Kind::Map | Kind::MapNew | Kind::Protect | Kind::Populate, &[start, len, word]) => {
            Some((number(start)?, number(len)?, prot(word)?))
        }
        (Kind::Unmap | Kind::Dup2, &[first, second]) => Some((number(first)?, number(second)?, 0)),
        (Kind::Fault, &[page, b"r"]) => Some((number(page)?, 0, 1)),
        (Kind::Fault, &[page, b"w"]) => Some((number(page)?, 0, 2)),
        (Kind::Fault, &[page, b"x"]) => Some((number(page)?, 0, 4)),
        (Kind::Open, &[file]) => Some((number(file).filter(|file| *file < 65_536)?, 0, 0)),
        (Kind::Signal, &[task]) => Some((number(task).filter(|task| *task < 64)?, 0, 0)),
        (Kind::Close | Kind::Dup | Kind::Get, &[fd]) => Some((number(fd)?, 0, 0)),
        _ => None,
    }
}

fn call(script: &Script, words: &[&[u8]]) -> Option<Call> {
    let (mode, words) = match words[0] {
        b"int" => (Mode::Int, &words[1..]),
        b"try" => (Mode::Try, &words[1..]),
        _ => (Mode::Plain, words),
    };
    let (&name, words) = words.split_first().filter(|(name, _)| is_name(name))?;
    let object = script
        .names
        .iter()
        .position(|other| other.as_bytes() == name)?;
    let (&verb, words) = words.split_first()?;
    let kind = kind(script.is_space[object], verb, words.first())?;
    if kind == Kind::Signal && mode != Mode::Plain {
        return None;
    }
    let (first, second, prot) = arguments(kind, words)?;
    Some(Call {
        object: object as u8,
        kind,
        mode,
        prot,
        first,
        second,
    })
}

/// The words of a line, eight at most; none where a byte isn't one of a script.
fn split(line: &[u8]) -> Option<([&[u8]; 8], usize)> {
    let (mut words, mut count): ([&[u8]; 8], usize) = ([b""; 8], 0);
    let mut start = None;
    let line = line.split(|byte| *byte == b'#').next().unwrap_or(line);
    for (i, byte) in line.iter().chain(b" ").enumerate() {
        match byte {
            b'!'..=b'~' => start = start.or(Some(i)),
            b' ' | b'\t' => {
                if let Some(start) = start.take().filter(|_| count < 8) {
                    words[count] = &line[start..i];
                    count += 1;
                }
            }
            _ => return None,
        }
    }
    Some((words, count))
}

fn read_line(script: &mut Script, line: &[u8]) -> Option<()> {
    let (words, count) = split(line)?;
    match &words[..count] {
        [] => {}
        &[kind @ (b"space" | b"table"), name] => {
            let text = String::from_utf8_lossy(name).into_owned();
            let is_late = !script.tasks.is_empty() || script.names.len() == 16;
            if is_late || !is_name(name) || script.names.contains(&text) {
                return None;
            }
            script.names.push(text);
            script.is_space.push(kind == b"space");
        }
        [b"task"] if script.tasks.len() < 64 => script.tasks.push(Vec::new()),
        words => {
            let call = call(script, words)?;
            script.tasks.last_mut()?.push(call);
        }
    }
    Some(())
}

/// The script, or the number of the first line that isn't in order.
pub fn script(input: &[u8]) -> Result<Script, usize> {
    let mut script = Script::default();
    for (number, line) in input.split(|byte| *byte == b'\n').enumerate() {
        let line = line.strip_suffix(b"\r").unwrap_or(line);
        read_line(&mut script, line).ok_or(number + 1)?;
    }
    Ok(script)
}
