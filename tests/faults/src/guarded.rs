//! Memory between two pages that nobody may touch: a byte read or written past either end is a fault.

use std::ffi::{c_char, c_int, c_void};

extern "C" {
    fn mmap(address: *mut c_void, length: usize, protection: c_int, flags: c_int, file: c_int, offset: i64) -> *mut c_void;
    fn memfd_create(name: *const c_char, flags: u32) -> c_int;
    fn ftruncate(file: c_int, length: i64) -> c_int;
    fn close(file: c_int) -> c_int;
}

pub const PAGE: usize = 4_096;

const PROT_NONE: c_int = 0;
const PROT_READ: c_int = 1;
const PROT_WRITE: c_int = 2;
const MAP_SHARED: c_int = 1;
const MAP_PRIVATE: c_int = 2;
const MAP_FIXED: c_int = 16;
const MAP_ANONYMOUS: c_int = 32;

/// Where a slice lies between the guard pages.
#[derive(Clone, Copy, Debug, PartialEq, Eq)]
pub enum Lie {
    /// Its last byte is the last before a guard page.
    AtEnd,
    /// Its first byte is the first behind a guard page.
    AtBegin,
    /// It is empty, and its address is 0, as a host of C may lend nothing.
    Nowhere,
}

/// The bytes between two guard pages, mapped twice: to be written, and to be read alone. Between calls they are `pattern`.
pub struct Guarded {
    pub name: &'static str,
    written: *mut u8,
    read: *const u8,
    pattern: Vec<u8>,
    /// The slice that is lent.
    from: usize,
    length: usize,
    lie: Lie,
}

/// How many bytes beside a slice are looked at after every call. All are looked at by `whole`.
const NEAR: usize = 512;

impl Guarded {
    /// Room for slices of up to `room` bytes, made whole pages.
    pub fn new(name: &'static str, room: usize, fill: u64) -> Guarded {
        let room = room.next_multiple_of(PAGE);
        let (written, read) = unsafe { mapped(room) };
        let mut guarded = Guarded {
            name,
            written,
            read,
            pattern: vec![0; room],
            from: 0,
            length: 0,
            lie: Lie::AtBegin,
        };
        guarded.repaint(fill);
        guarded
    }

    /// Another pattern: no byte is 0.
    pub fn repaint(&mut self, fill: u64) {
        let mut state = fill | 1;
        for piece in self.pattern.chunks_mut(8) {
            state = state.wrapping_mul(6_364_136_223_846_793_005).wrapping_add(1);
            let bytes = ((state ^ state >> 29) | 0x0101_0101_0101_0101).to_le_bytes();
            piece.copy_from_slice(&bytes[..piece.len()]);
        }
        self.all().copy_from_slice(&self.pattern);
    }

    pub fn room(&self) -> usize {
        self.pattern.len()
    }

    /// The bytes between the guard pages, which stay until the process ends. Never held over a call, nor twice.
    fn all<'a>(&self) -> &'a mut [u8] {
        unsafe { std::slice::from_raw_parts_mut(self.written, self.pattern.len()) }
    }

    /// Lends a slice of `length` bytes that begins with `bytes` and goes on as the pattern does.
    pub fn lend(&mut self, lie: Lie, length: usize, bytes: &[u8]) {
        self.length = length;
        self.lie = lie;
        self.from = match lie {
            Lie::AtEnd => self.room() - length,
            _ => 0,
        };
        assert!(length <= self.room() && bytes.len() <= length && (lie != Lie::Nowhere || length == 0));
        let from = self.from;
        self.all()[from..from + bytes.len()].copy_from_slice(bytes);
    }

    /// The address to be lent for writing.
    pub fn to_write(&self) -> *mut u8 {
        match self.lie {
            Lie::Nowhere => std::ptr::null_mut(),
            _ => self.written.wrapping_add(self.from),
        }
    }

    /// The address to be lent for reading: a write there is a fault.
    pub fn to_read(&self) -> *const u8 {
        match self.lie {
            Lie::Nowhere => std::ptr::null(),
            _ => self.read.wrapping_add(self.from),
        }
    }

    pub fn length(&self) -> usize {
        self.length
    }

    /// The lent slice begins with `bytes` and goes on as the pattern; what is near it is as it was. It is given back.
    pub fn back(&mut self, bytes: &[u8]) -> Result<(), String> {
        let (from, to) = (self.from, self.from + self.length);
        let middle = from + bytes.len();
        let (all, pattern) = (self.all(), &self.pattern);
        let near = (from.saturating_sub(NEAR), (to + NEAR).min(pattern.len()));
        let mut bad = differ(&all[from..middle], bytes).map(|at| from + at);
        bad = bad.or_else(|| differ(&all[middle..near.1], &pattern[middle..near.1]).map(|at| middle + at));
        bad = bad.or_else(|| differ(&all[near.0..from], &pattern[near.0..from]).map(|at| near.0 + at));
        all[from..to].copy_from_slice(&pattern[from..to]);
        match bad {
            None => Ok(()),
            Some(at) => Err(format!("{} is not as due", self.told(at as isize))),
        }
    }

    /// As `back`, where the lent slice has to be all zero.
    pub fn back_zero(&mut self) -> Result<(), String> {
        let (from, to) = (self.from, self.from + self.length);
        let all = self.all();
        let left = all[from..to].chunks(1_024).position(|chunk| chunk.iter().fold(0, |all, byte| all | byte) != 0);
        if let Some(chunk) = left {
            let rest = &all[from + 1_024 * chunk..to];
            let at = 1_024 * chunk + rest.iter().position(|&byte| byte != 0).unwrap_or(0);
            return Err(format!("{} is not zero", self.told((from + at) as isize)));
        }
        all[from..to].copy_from_slice(&self.pattern[from..to]);
        self.back(&[])
    }

    /// Nothing is lent, and all bytes between the guard pages are as they were.
    pub fn whole(&mut self) -> Result<(), String> {
        match differ(self.all(), &self.pattern) {
            None => Ok(()),
            Some(at) => Err(format!("far from the slice: {} is not as it was", self.told(at as isize))),
        }
    }

    /// A byte, for people.
    fn told(&self, at: isize) -> String {
        let at = at - self.from as isize;
        let length = self.length as isize;
        match at {
            _ if at < 0 => format!("byte {} in front of {}", -at, self.name),
            _ if at >= length => format!("byte {} behind {}", at - length + 1, self.name),
            _ => format!("byte {at} of {}", self.name),
        }
    }

    /// Whether an address is here or in the guard pages, told for people.
    pub fn tell(&self, address: usize) -> Option<(&'static str, isize)> {
        [self.written as usize, self.read as usize].into_iter().find_map(|base| {
            let at = address.wrapping_sub(base) as isize;
            let here = -(PAGE as isize)..(self.room() + PAGE) as isize;
            here.contains(&at).then_some((self.name, at - self.from as isize))
        })
    }
}

/// The first place where two lists of one length differ.
fn differ(one: &[u8], other: &[u8]) -> Option<usize> {
    if one == other {
        return None;
    }
    one.iter().zip(other).position(|(a, b)| a != b)
}

/// The same memory twice, to be written and to be read, each between guard pages. It stays until the process ends.
unsafe fn mapped(room: usize) -> (*mut u8, *const u8) {
    let file = memfd_create(c"lent".as_ptr(), 0);
    assert!(file >= 0 && ftruncate(file, room as i64) == 0, "memory");
    let view = |protection: c_int| {
        let around = room + 2 * PAGE;
        let flags = MAP_PRIVATE | MAP_ANONYMOUS;
        let guards = mmap(std::ptr::null_mut(), around, PROT_NONE, flags, -1, 0);
        assert!(guards as isize != -1, "addresses");
        let inside = guards.wrapping_byte_add(PAGE);
        let got = mmap(inside, room, protection, MAP_SHARED | MAP_FIXED, file, 0);
        assert!(got == inside, "memory between guard pages");
        got as *mut u8
    };
    let both = (view(PROT_READ | PROT_WRITE), view(PROT_READ) as *const u8);
    close(file);
    both
}
