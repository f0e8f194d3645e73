//! The C entries of the product's static library, through a program that is linked with it.

use crate::near_text::{Decimal, Share};
use crate::programs::{below_root, start};
use crate::tables::Tables;
use std::cell::RefCell;
use std::io::{self, Read, Write};
use std::mem;
use std::path::PathBuf;
use std::process::{Child, ChildStdin, ChildStdout};

/// The program that is linked with the static library and calls its entries: `driver.c`.
pub fn driver() -> PathBuf {
    below_root("target/second/driver")
}

/// A driver that waits for requests.
pub struct Driver {
    process: Child,
    /// Taken away at the end, which tells the driver that no more come.
    requests: Option<ChildStdin>,
    replies: ChildStdout,
}

impl Driver {
    fn new() -> Driver {
        let mut process = start(&driver(), &[]);
        let requests = process.stdin.take();
        let replies = process.stdout.take().expect("it is piped");
        Driver { process, requests, replies }
    }

    /// Sends these numbers, these bytes and the memory; takes so many numbers and the memory.
    pub fn ask<const N: usize>(
        &mut self,
        numbers: &[usize],
        bytes: &[u8],
        memory: &mut [u8],
    ) -> io::Result<[u32; N]> {
        let number = |&number: &usize| u32::try_from(number).expect("less than 4 GiB");
        let numbers = numbers.iter().map(number).flat_map(u32::to_ne_bytes);
        // All at once, because each write and each read is a turn of both processes.
        let request: Vec<u8> =
            numbers.chain(bytes.iter().copied()).chain(memory.iter().copied()).collect();
        let requests = self.requests.as_mut().expect("it is piped");
        requests.write_all(&request)?;
        requests.flush()?;
        let mut reply = [[0; 4]; N];
        self.replies.read_exact(reply.as_flattened_mut())?;
        self.replies.read_exact(memory)?;
        Ok(reply.map(u32::from_ne_bytes))
    }

    fn call(&mut self, call: &Call, memory: &mut [u8]) -> io::Result<Reply> {
        let Call { file, mode, start, answer_length } = *call;
        let numbers = [0, mode as usize, file.len(), memory.len(), start, answer_length];
        let [number, unchanged] = self.ask(&numbers, file, memory)?;
        Ok(Reply { number, file_unchanged: unchanged == 1 })
    }

    fn write(&mut self, write: &Writing, memory: &mut [u8]) -> io::Result<Written> {
        let Writing { tables, start, buffer_length } = *write;
        let lists = [&tables.denominators, &tables.edges, &tables.order, &tables.rewards];
        let mut numbers = vec![1];
        numbers.extend(lists.map(Vec::len));
        numbers.extend([memory.len(), start, buffer_length]);
        let head = [tables.states, tables.start, tables.goals];
        let lent = head.iter().chain(lists.into_iter().flatten());
        let bytes: Vec<u8> = lent.flat_map(|number| number.to_ne_bytes()).collect();
        let [number, place, length, unchanged] = self.ask(&numbers, &bytes, memory)?;
        Ok(Written { number, place, length, tables_unchanged: unchanged == 1 })
    }

    fn steps(&mut self, listing: &Listing, memory: &mut [u8]) -> io::Result<Stepped> {
        let Listing { file, start, room } = *listing;
        let numbers = [2, file.len(), memory.len(), start, room];
        let [number, place, count, numerator, denominator, unchanged] =
            self.ask(&numbers, file, memory)?;
        let file_unchanged = unchanged == 1;
        Ok(Stepped { number, place, count, numerator, denominator, file_unchanged })
    }

    fn order(&mut self, listing: &Listing, memory: &mut [u8]) -> io::Result<Ordered> {
        let Listing { file, start, room } = *listing;
        let numbers = [3, file.len(), memory.len(), start, room];
        let [number, place, sum, unchanged] = self.ask(&numbers, file, memory)?;
        Ok(Ordered { number, place, sum, file_unchanged: unchanged == 1 })
    }

    fn within(&mut self, file: &[u8], steps: u64) -> io::Result<Reached> {
        let [low, high] = halves(steps);
        let numbers = [4, file.len(), low, high];
        let [number, place, parts, unchanged] = self.ask(&numbers, file, &mut [])?;
        Ok(Reached { number, place, parts, file_unchanged: unchanged == 1 })
    }

    /// The table is memory that the entry may only read: it comes back for a look at it.
    fn check(&mut self, file: &[u8], shares: &[u8]) -> io::Result<Checked> {
        let mut memory = shares.to_vec();
        let numbers = [5, file.len(), memory.len()];
        let [number, place, right, state, unchanged] = self.ask(&numbers, file, &mut memory)?;
        let changed = unchanged != 1 || memory != shares;
        Ok(Checked { number, place, right, state, changed })
    }

    fn near(&mut self, file: &[u8], from: Option<u64>) -> io::Result<Neared> {
        let [low, high] = halves(from.unwrap_or(0));
        let numbers = [6, file.len(), usize::from(from.is_some()), low, high];
        Ok(Neared::of(self.ask(&numbers, file, &mut [])?))
    }

    /// How a driver ended on which a call failed with this error.
    fn ended(mut self, error: io::Error) -> io::Error {
        drop(self.requests.take());
        match self.process.wait() {
            Ok(status) => io::Error::other(format!("the driver ended with {status} ({error})")),
            Err(_) => error,
        }
    }
}

impl Drop for Driver {
    fn drop(&mut self) {
        drop(self.requests.take());
        let _ = self.process.wait();
    }
}

thread_local! {
    /// Each thread has a driver of its own: the entry is never called twice at once.
    static DRIVER: RefCell<Driver> = RefCell::new(Driver::new());
}

/// One call of the entry. The answer is the part of the memory from `start` on.
pub struct Call<'a> {
    pub file: &'a [u8],
    pub mode: u32,
    pub start: usize,
    pub answer_length: usize,
}

pub struct Reply {
    pub number: u32,
    pub file_unchanged: bool,
}

/// What a call says. The next call finds a new driver, so that a crash is one failure and the run
/// goes on.
pub fn asked<T>(call: impl FnOnce(&mut Driver) -> io::Result<T>) -> io::Result<T> {
    DRIVER.with_borrow_mut(|driver| {
        call(driver).map_err(|error| mem::replace(driver, Driver::new()).ended(error))
    })
}

/// What the C entry returns; `memory` then holds what it left there.
pub fn chance(call: &Call, memory: &mut [u8]) -> io::Result<Reply> {
    asked(|driver| driver.call(call, memory))
}

/// One call of the writer. The buffer is the part of the memory from `start` on.
pub struct Writing<'a> {
    pub tables: &'a Tables,
    pub start: usize,
    pub buffer_length: usize,
}

#[derive(Debug, PartialEq, Eq)]
pub struct Written {
    pub number: u32,
    pub place: u32,
    pub length: u32,
    pub tables_unchanged: bool,
}

/// What the writer returns; `memory` then holds what it left there.
pub fn write(writing: &Writing, memory: &mut [u8]) -> io::Result<Written> {
    asked(|driver| driver.write(writing, memory))
}

/// One call of the step list's entry, or of the one that chooses an order. The list, of so many records
/// or numbers, is the part of the memory from `start` on.
pub struct Listing<'a> {
    pub file: &'a [u8],
    pub start: usize,
    pub room: usize,
}

#[derive(Debug, PartialEq, Eq)]
pub struct Stepped {
    pub number: u32,
    pub place: u32,
    pub count: u32,
    pub numerator: u32,
    pub denominator: u32,
    pub file_unchanged: bool,
}

/// What the step list's entry returns; `memory` then holds what it left there.
pub fn steps(listing: &Listing, memory: &mut [u8]) -> io::Result<Stepped> {
    asked(|driver| driver.steps(listing, memory))
}

#[derive(Debug, PartialEq, Eq)]
pub struct Ordered {
    pub number: u32,
    pub place: u32,
    pub sum: u32,
    pub file_unchanged: bool,
}

/// What the entry that chooses an order returns; `memory` then holds what it left there.
pub fn order(listing: &Listing, memory: &mut [u8]) -> io::Result<Ordered> {
    asked(|driver| driver.order(listing, memory))
}

#[derive(Debug, PartialEq, Eq)]
pub struct Reached {
    pub number: u32,
    pub place: u32,
    pub parts: u32,
    pub file_unchanged: bool,
}

/// What the entry of the chance within so many steps returns.
pub fn within(file: &[u8], steps: u64) -> io::Result<Reached> {
    asked(|driver| driver.within(file, steps))
}

#[derive(Debug, Default, PartialEq, Eq)]
pub struct Checked {
    pub number: u32,
    pub place: u32,
    pub right: u32,
    pub state: u32,
    /// Whether the file or the table is not as it was.
    pub changed: bool,
}

/// What the entry of the check of a table returns.
pub fn check(file: &[u8], shares: &[u8]) -> io::Result<Checked> {
    asked(|driver| driver.check(file, shares))
}

#[derive(Debug, Default, PartialEq, Eq)]
pub struct Neared {
    pub number: u32,
    pub place: u32,
    pub near: Share,
    pub miss: Share,
    pub file_unchanged: bool,
}

impl Neared {
    /// What the numbers of a reply say.
    pub fn of(reply: [u32; 21]) -> Neared {
        let decimal = |at| Decimal { digits: u64::from(reply[at]), tens: reply[at + 1] };
        let [near, miss] = [3, 12].map(|at| Share {
            lower: eight_bytes(&reply[at..]),
            upper: eight_bytes(&reply[at + 2..]),
            twos: reply[at + 4],
            lowest: decimal(at + 5),
            highest: decimal(at + 7),
        });
        Neared { number: reply[0], place: reply[1], near, miss, file_unchanged: reply[2] == 1 }
    }
}

/// A number of 8 bytes as two of a request, the lower half first, and as two of a reply.
pub fn halves(number: u64) -> [usize; 2] {
    [number as u32 as usize, (number >> 32) as usize]
}

pub fn eight_bytes(reply: &[u32]) -> u64 {
    u64::from(reply[1]) << 32 | u64::from(reply[0])
}

/// What the entry of near chances returns, or, where a state is given, the one that starts there.
pub fn near(file: &[u8], from: Option<u64>) -> io::Result<Neared> {
    asked(|driver| driver.near(file, from))
}
