//! A safe wrapper over the C interface of include/recfile.h.

// A program need not use all of it.
#![allow(dead_code)]

mod c {
    use super::Entry;

    extern "C" {
        pub fn recfile_check(buf: *const u8, len: usize, used: usize) -> u32;
        pub fn recfile_count(buf: *const u8, len: usize, used: usize, set: *const u8, set_len: usize, number: *mut u32) -> usize;
        pub fn recfile_fetch(
            buf: *const u8, len: usize, used: usize, set: *const u8, set_len: usize, record: usize,
            name: *const u8, name_len: usize, occurrence: usize, out: *mut u8, out_len: usize, number: *mut u32,
        ) -> usize;
        pub fn recfile_view(
            buf: *const u8, len: usize, used: usize, set: *const u8, set_len: usize, record: usize,
            start: *mut usize, number: *mut u32,
        ) -> usize;
        pub fn recfile_set_name(buf: *const u8, len: usize, used: usize, set: usize, out: *mut u8, out_len: usize, number: *mut u32) -> usize;
        pub fn recfile_find(
            buf: *const u8, len: usize, used: usize, set: *const u8, set_len: usize, expression: *const u8, expression_len: usize,
            records: *mut usize, records_len: usize, number: *mut u32,
        ) -> usize;
        pub fn recfile_total(
            buf: *const u8, len: usize, used: usize, set: *const u8, set_len: usize, name: *const u8, name_len: usize,
            hundredths: *mut i64, millionths: *mut i64, number: *mut u32,
        ) -> usize;
        pub fn recfile_request_field(
            request: *mut u8, len: usize, at: usize, tag: u8, contents: *const u8, contents_len: usize,
        ) -> usize;
        pub fn recfile_write(request: *const u8, request_len: usize, out: *mut u8, out_len: usize, number: *mut u32) -> usize;
        pub fn recfile_to_fill(
            buf: *const u8, len: usize, used: usize, request: *const u8, request_len: usize, number: *mut u32,
        ) -> usize;
        pub fn recfile_edit(
            buf: *mut u8, len: usize, used: usize, request: *const u8, request_len: usize, number: *mut u32,
        ) -> usize;
        pub fn recfile_edit_run(
            buf: *mut u8, len: usize, used: usize, run: *const u8, run_len: usize,
            answers: *mut u32, answers_len: usize, number: *mut u32,
        ) -> usize;
        pub fn recfile_fill(
            buf: *const u8, len: usize, used: usize, entries: *mut Entry, entries_len: usize, number: *mut u32,
        ) -> usize;
        pub fn recfile_edit_listed(
            buf: *mut u8, len: usize, used: usize, request: *const u8, request_len: usize,
            entries: *mut Entry, entries_len: usize, number: *mut u32,
        ) -> usize;
        pub fn recfile_count_at(entries: *const Entry, entries_len: usize, position: usize, number: *mut u32) -> usize;
    }
}

/// The number of the first question that says no.
#[derive(Clone, Copy, Debug, PartialEq, Eq)]
pub struct Refused(pub u32);

fn accepted<T>(value: T, number: u32) -> Result<T, Refused> {
    if number == 0 { Ok(value) } else { Err(Refused(number)) }
}

/// The most bytes of a file.
pub const MAX_FILE: usize = 65536;

/// The most sets that a file has, the default set included.
pub const MAX_SETS: usize = 65;

/// The most requests of a run.
pub const MAX_REQUESTS: usize = 64;

/// A set in a directory of sets.
#[repr(C)]
#[derive(Clone, Copy, Debug, Default, PartialEq, Eq)]
pub struct Entry {
    pub place: usize,
    pub count: usize,
    pub end: usize,
}

/// The values of a field added up: in hundredths, in exact millionths, and how many they are.
#[derive(Clone, Copy, Debug, PartialEq, Eq)]
pub struct Total {
    pub hundredths: i64,
    pub millionths: i64,
    pub values: usize,
}

/// The number of records of the set at a position in a directory.
pub fn count_at(entries: &[Entry], position: usize) -> Result<usize, Refused> {
    let mut number = 0;
    let n = unsafe { c::recfile_count_at(entries.as_ptr(), entries.len(), position, &mut number) };
    accepted(n, number)
}

/// A file at the front of a buffer.
pub struct File<'a> {
    buf: &'a mut [u8],
    used: usize,
}

impl<'a> File<'a> {
    pub fn new(buf: &'a mut [u8], used: usize) -> Self {
        File { buf, used }
    }

    pub fn used(&self) -> usize {
        self.used
    }

    pub fn check(&self) -> Result<(), Refused> {
        accepted((), unsafe { c::recfile_check(self.buf.as_ptr(), self.buf.len(), self.used) })
    }

    pub fn count(&self, set: &[u8]) -> Result<usize, Refused> {
        let mut number = 0;
        let n = unsafe { c::recfile_count(self.buf.as_ptr(), self.buf.len(), self.used, set.as_ptr(), set.len(), &mut number) };
        accepted(n, number)
    }

    /// The length of the name of the set of a number, which stands at the front of `out`; set 0 is the default set.
    pub fn set_name(&self, set: usize, out: &mut [u8]) -> Result<usize, Refused> {
        let mut number = 0;
        let n = unsafe {
            c::recfile_set_name(self.buf.as_ptr(), self.buf.len(), self.used, set, out.as_mut_ptr(), out.len(), &mut number)
        };
        accepted(n, number)
    }

    /// The length of the value, which stands at the front of `out`.
    pub fn fetch(&self, set: &[u8], record: usize, name: &[u8], occurrence: usize, out: &mut [u8]) -> Result<usize, Refused> {
        let mut number = 0;
        let n = unsafe {
            c::recfile_fetch(
                self.buf.as_ptr(), self.buf.len(), self.used, set.as_ptr(), set.len(), record,
                name.as_ptr(), name.len(), occurrence, out.as_mut_ptr(), out.len(), &mut number,
            )
        };
        accepted(n, number)
    }

    pub fn view(&self, set: &[u8], record: usize) -> Result<&[u8], Refused> {
        let (mut start, mut number) = (0, 0);
        let n = unsafe {
            c::recfile_view(
                self.buf.as_ptr(), self.buf.len(), self.used, set.as_ptr(), set.len(), record, &mut start, &mut number,
            )
        };
        accepted(&self.buf[start..start + n], number)
    }

    /// How many records of a set satisfy an expression; their numbers, rising, stand at the front of the list.
    pub fn find(&self, set: &[u8], expression: &[u8], records: &mut [usize]) -> Result<usize, Refused> {
        let mut number = 0;
        let n = unsafe {
            c::recfile_find(
                self.buf.as_ptr(), self.buf.len(), self.used, set.as_ptr(), set.len(), expression.as_ptr(), expression.len(),
                records.as_mut_ptr(), records.len(), &mut number,
            )
        };
        accepted(n, number)
    }

    /// The values of a name in all records of a set, added up.
    pub fn total(&self, set: &[u8], name: &[u8]) -> Result<Total, Refused> {
        let (mut hundredths, mut millionths, mut number) = (0, 0, 0);
        let values = unsafe {
            c::recfile_total(
                self.buf.as_ptr(), self.buf.len(), self.used, set.as_ptr(), set.len(), name.as_ptr(), name.len(),
                &mut hundredths, &mut millionths, &mut number,
            )
        };
        accepted(Total { hundredths, millionths, values }, number)
    }

    /// How many mandatory names, the key among them, an insert request lacks that is still a draft.
    pub fn to_fill(&self, request: &[u8]) -> Result<usize, Refused> {
        let mut number = 0;
        let n = unsafe {
            c::recfile_to_fill(self.buf.as_ptr(), self.buf.len(), self.used, request.as_ptr(), request.len(), &mut number)
        };
        accepted(n, number)
    }

    pub fn edit(&mut self, request: &[u8]) -> Result<(), Refused> {
        let mut number = 0;
        self.used = unsafe {
            c::recfile_edit(
                self.buf.as_mut_ptr(), self.buf.len(), self.used, request.as_ptr(), request.len(), &mut number,
            )
        };
        accepted((), number)
    }

    /// A run of requests, each on what the one before left. Their numbers, 0 where accepted, stand at the front of `answers`.
    pub fn edit_run(&mut self, run: &[u8], answers: &mut [u32]) -> Result<(), Refused> {
        let mut number = 0;
        self.used = unsafe {
            c::recfile_edit_run(
                self.buf.as_mut_ptr(), self.buf.len(), self.used, run.as_ptr(), run.len(),
                answers.as_mut_ptr(), answers.len(), &mut number,
            )
        };
        accepted((), number)
    }

    /// The number of sets, whose entries stand at the front of the list.
    pub fn fill(&self, entries: &mut [Entry]) -> Result<usize, Refused> {
        let mut number = 0;
        let n = unsafe {
            c::recfile_fill(self.buf.as_ptr(), self.buf.len(), self.used, entries.as_mut_ptr(), entries.len(), &mut number)
        };
        accepted(n, number)
    }

    /// An edit that leaves the list right, accepted or refused.
    pub fn edit_listed(&mut self, request: &[u8], entries: &mut [Entry]) -> Result<(), Refused> {
        let mut number = 0;
        self.used = unsafe {
            c::recfile_edit_listed(
                self.buf.as_mut_ptr(), self.buf.len(), self.used, request.as_ptr(), request.len(),
                entries.as_mut_ptr(), entries.len(), &mut number,
            )
        };
        accepted((), number)
    }
}

/// The length of the text of an insert's record, which stands at the front of `out`.
pub fn write(request: &[u8], out: &mut [u8]) -> Result<usize, Refused> {
    let mut number = 0;
    let n = unsafe { c::recfile_write(request.as_ptr(), request.len(), out.as_mut_ptr(), out.len(), &mut number) };
    accepted(n, number)
}

/// The tag of each field of a request.
pub mod tag {
    pub const KIND: u8 = 1;
    pub const SET: u8 = 2;
    pub const RECORD: u8 = 3;
    pub const NAME: u8 = 4;
    pub const OCCURRENCE: u8 = 5;
    pub const VALUE: u8 = 6;
    pub const NEW_NAME: u8 = 7;
}

/// The kinds of a request.
pub mod kind {
    pub const INSERT: u8 = 1;
    pub const DELETE: u8 = 2;
    pub const ADD: u8 = 3;
    pub const SET: u8 = 4;
    pub const DROP: u8 = 5;
    pub const RENAME: u8 = 6;
}

/// A request, built field by field at the front of a buffer.
pub struct Request<'a> {
    buf: &'a mut [u8],
    at: usize,
}

impl<'a> Request<'a> {
    pub fn new(buf: &'a mut [u8], kind: u8, set: &str) -> Self {
        Request { buf, at: 0 }.field(tag::KIND, &[kind]).field(tag::SET, set.as_bytes())
    }

    pub fn field(mut self, tag: u8, contents: &[u8]) -> Self {
        self.at = unsafe {
            c::recfile_request_field(self.buf.as_mut_ptr(), self.buf.len(), self.at, tag, contents.as_ptr(), contents.len())
        };
        self
    }

    pub fn pair(self, name: &str, value: &str) -> Self {
        self.field(tag::NAME, name.as_bytes()).field(tag::VALUE, value.as_bytes())
    }

    /// The request; none where a field did not fit.
    pub fn bytes(&self) -> Option<&[u8]> {
        self.buf.get(..self.at)
    }
}

/// A run of requests, built one request at a time at the front of a buffer.
pub struct Run<'a> {
    buf: &'a mut [u8],
    at: usize,
}

impl<'a> Run<'a> {
    pub fn new(buf: &'a mut [u8]) -> Self {
        Run { buf, at: 0 }
    }

    /// The request behind its length. One that does not fit, or has more than 65,535 bytes, makes the run one that is not there.
    pub fn request(mut self, request: &[u8]) -> Self {
        let room = self.buf.get_mut(self.at..).and_then(|rest| rest.get_mut(..2 + request.len()));
        match (room, u16::try_from(request.len())) {
            (Some(room), Ok(len)) => {
                room[..2].copy_from_slice(&len.to_be_bytes());
                room[2..].copy_from_slice(request);
                self.at += 2 + request.len();
            }
            _ => self.at = self.buf.len() + 1,
        }
        self
    }

    /// The run; none where a request did not fit.
    pub fn bytes(&self) -> Option<&[u8]> {
        self.buf.get(..self.at)
    }
}
