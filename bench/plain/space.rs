//! An address space: areas in order, of which no two that touch have one protection.
use crate::call::{Call, Kind, Reply};

pub const MAX_AREAS: usize = 256;
const PAGES: u64 = 1 << 20;

#[derive(Clone, Copy, Default)]
pub struct Area {
    pub start: u32,
    pub end: u32,
    pub prot: u8,
}

#[derive(Default)]
pub struct Space {
    pub areas: Vec<Area>,
    /// The task and the number of each call that may have changed it.
    pub log: Vec<(u8, u32)>,
}

/// Adds an area to these, joined with the last if the two touch and have one protection.
fn push(areas: &mut [Area; 3], count: &mut usize, area: Area) {
    if *count > 0 && areas[*count - 1].end == area.start && areas[*count - 1].prot == area.prot {
        areas[*count - 1].end = area.end;
        return;
    }
    areas[*count] = area;
    *count += 1;
}

impl Space {
    /// The first area that ends behind the page.
    fn at(&self, page: u32) -> usize {
        self.areas.partition_point(|area| area.end <= page)
    }

    /// Gives the range this protection, or unmaps it. False where there would be too many areas.
    fn set(&mut self, start: u32, end: u32, prot: Option<u8>) -> bool {
        let first = self.areas.partition_point(|area| area.end < start);
        let last = first + self.areas[first..].partition_point(|area| area.start <= end);
        let (mut new, mut count) = ([Area::default(); 3], 0);
        if let Some(area) = self.areas[first..last]
            .first()
            .filter(|area| area.start < start)
        {
            push(
                &mut new,
                &mut count,
                Area {
                    end: area.end.min(start),
                    ..*area
                },
            );
        }
        if let Some(prot) = prot {
            push(&mut new, &mut count, Area { start, end, prot });
        }
        if let Some(area) = self.areas[first..last].last().filter(|area| area.end > end) {
            push(
                &mut new,
                &mut count,
                Area {
                    start: area.start.max(end),
                    ..*area
                },
            );
        }
        if self.areas.len() - (last - first) + count > MAX_AREAS {
            return false;
        }
        self.areas.splice(first..last, new[..count].iter().copied());
        true
    }

    fn is_free(&self, start: u32, end: u32) -> bool {
        self.areas
            .get(self.at(start))
            .is_none_or(|area| area.start >= end)
    }

    fn is_mapped(&self, start: u32, end: u32) -> bool {
        let mut page = start;
        for area in &self.areas[self.at(start)..] {
            if area.start > page {
                return false;
            }
            page = area.end;
            if page >= end {
                return true;
            }
        }
        false
    }

    /// The lowest start of so many free pages.
    fn lowest_free(&self, len: u32) -> Option<u32> {
        let mut page = 0;
        for area in &self.areas {
            if area.start - page >= len {
                return Some(page);
            }
            page = area.end;
        }
        (u64::from(page) + u64::from(len) <= PAGES).then_some(page)
    }

    pub fn fault(&self, page: u32, access: u8) -> Reply {
        match self.areas.get(self.at(page)) {
            Some(area) if area.start <= page && area.prot & access != 0 => Reply::Good,
            Some(area) if area.start <= page => Reply::AccErr,
            _ => Reply::MapErr,
        }
    }

    pub fn change(&mut self, call: &Call) -> Reply {
        if call.kind == Kind::MapAny {
            return self.map_any(call.first, call.prot);
        }
        let (start, len) = (call.first, call.second);
        if len == 0 || u64::from(start) + u64::from(len) > PAGES {
            return Reply::Inval;
        }
        let end = start + len;
        let (prot, reply) = match call.kind {
            Kind::MapNew if !self.is_free(start, end) => return Reply::Exist,
            Kind::Protect if !self.is_mapped(start, end) => return Reply::NoMem,
            Kind::Map | Kind::MapNew => (Some(call.prot), Reply::Num(start)),
            Kind::Unmap => (None, Reply::Good),
            Kind::Protect => (Some(call.prot), Reply::Good),
            _ => (
                Some(call.prot),
                Reply::Num(if call.prot & 1 != 0 { len } else { 0 }),
            ),
        };
        if self.set(start, end, prot) {
            reply
        } else {
            Reply::NoMem
        }
    }

    fn map_any(&mut self, len: u32, prot: u8) -> Reply {
        if len == 0 {
            return Reply::Inval;
        }
        match self.lowest_free(len) {
            Some(start) if self.set(start, start + len, Some(prot)) => Reply::Num(start),
            _ => Reply::NoMem,
        }
    }
}
