//! A table of 64 descriptors.
use crate::call::{Call, Kind, Reply};

pub struct Table {
    pub files: [Option<u16>; 64],
    /// The task and the number of each call that may have changed it.
    pub log: Vec<(u8, u32)>,
}

impl Table {
    fn lowest_free(&self) -> Option<usize> {
        self.files.iter().position(Option::is_none)
    }

    fn file(&self, fd: u32) -> Option<u16> {
        self.files.get(fd as usize).copied().flatten()
    }

    pub fn get(&self, fd: u32) -> Reply {
        self.file(fd)
            .map_or(Reply::BadF, |file| Reply::Num(u32::from(file)))
    }

    /// Opens the lowest free descriptor to the file.
    fn open(&mut self, file: u16) -> Reply {
        let Some(fd) = self.lowest_free() else {
            return Reply::MFile;
        };
        self.files[fd] = Some(file);
        Reply::Num(fd as u32)
    }

    pub fn change(&mut self, call: &Call) -> Reply {
        match (call.kind, self.file(call.first)) {
            (Kind::Open, _) => self.open(call.first as u16),
            (Kind::Close, Some(_)) => {
                self.files[call.first as usize] = None;
                Reply::Good
            }
            (Kind::Dup, Some(file)) => self.open(file),
            (Kind::Dup2, Some(file)) if call.second < 64 => {
                self.files[call.second as usize] = Some(file);
                Reply::Num(call.second)
            }
            _ => Reply::BadF,
        }
    }
}
