//! The listing through the Rust crate: its public calls, and the oracle's probes for what it keeps to itself.
//!
//! It is made as cheap for the Rust as it can be: one buffer that is used again, no formatting machinery, each value
//! asked for once, and no run decoded that the listing does not print.
use ntfs_relaxed::attribute_value::{NtfsAttributeListNonResidentAttributeValue, NtfsAttributeValue, LENIENT};
use ntfs_relaxed::{probe_attribute as probe, probe_ntfs, Ntfs, NtfsAttribute, NtfsError, Result};
use std::collections::BTreeMap;
use std::io::{self, Read, Seek, SeekFrom};

const CLUSTER: u64 = 2 << 20;
/// Where the made-up record of the MFT stands on the made-up volume, and where record 0 does.
const MFT: u64 = CLUSTER;
const RECORDS: u64 = 2 * CLUSTER;

/// A volume of 2^48 records in memory, of which only those of a table are there.
pub struct Volume {
    pub base: u64,
    size: usize,
    mft: Vec<u8>,
    rows: BTreeMap<u64, Vec<u8>>,
    at: u64,
}

fn number(t: &[u8], at: usize, bytes: usize) -> u64 {
    t[at..at + bytes].iter().rev().fold(0, |n, b| n << 8 | *b as u64)
}

/// Where the record with a number stands in a table.
pub fn place_of(t: &[u8], record: u64) -> usize {
    let (count, directory) = (number(t, 0, 4), number(t, 8, 4));
    let mut rows = (0..count).map(|i| (directory + 12 * i) as usize);
    let row = rows.find(|row| number(t, *row, 8) == record).expect("a record of the table");
    number(t, row + 8, 4) as usize
}

/// The crate reads the MFT's own record before each other one, to find where that one stands: here by one run over all
/// records.
fn mft_record(size: usize) -> Vec<u8> {
    let clusters = ((1u64 << 48) * size as u64).div_ceil(CLUSTER);
    let mut r = vec![0u8; size];
    r[0..4].copy_from_slice(b"FILE");
    r[20] = 56;
    let a = &mut r[56..];
    a[0] = 0x80;
    a[4] = 72;
    a[8] = 1;
    a[32] = 64;
    a[48..56].copy_from_slice(&(clusters * CLUSTER).to_le_bytes());
    a[64] = 0x16;
    a[65..71].copy_from_slice(&clusters.to_le_bytes()[..6]);
    a[71] = (RECORDS / CLUSTER) as u8;
    a[72..76].fill(0xFF);
    r
}

impl Volume {
    /// The records of a table, checked as 21 asks.
    pub fn of(t: &[u8]) -> Option<Volume> {
        if t.len() < 20 || t.len() > 65_536 {
            return None;
        }
        let [count, size, directory, records, base] = [0, 4, 8, 12, 16].map(|at| number(t, at, 4));
        if count > 4096 || !(64..=4096).contains(&size) || size % 8 != 0 || directory < 20 {
            return None;
        }
        if directory + 12 * count > records || records > t.len() as u64 || base >= count {
            return None;
        }
        let (mut rows, mut least, mut base_number) = (BTreeMap::new(), 0, 0);
        for i in 0..count {
            let row = (directory + 12 * i) as usize;
            let (n, at) = (number(t, row, 8), number(t, row + 8, 4));
            if n >= 1 << 48 || n < least || at < records || at + size > t.len() as u64 {
                return None;
            }
            least = n + 1;
            if i == base {
                base_number = n;
            }
            rows.insert(n, t[at as usize..(at + size) as usize].to_vec());
        }
        let size = size as usize;
        Some(Volume { base: base_number, size, mft: mft_record(size), rows, at: 0 })
    }

    pub fn ntfs(&self) -> Ntfs {
        probe_ntfs::make(CLUSTER as u32, self.size as u32, MFT)
    }
}

impl Seek for Volume {
    fn seek(&mut self, to: SeekFrom) -> io::Result<u64> {
        let SeekFrom::Start(at) = to else { return Err(io::Error::other("only from the start")) };
        self.at = at;
        Ok(at)
    }
}

impl Read for Volume {
    fn read(&mut self, out: &mut [u8]) -> io::Result<usize> {
        let record = if self.at < RECORDS {
            &self.mft
        } else {
            let n = (self.at - RECORDS) / self.size as u64;
            self.rows.get(&n).ok_or_else(|| io::Error::other("no such record"))?
        };
        out.copy_from_slice(record);
        Ok(out.len())
    }
}

/// The number (docs/RULES.md, section 19) of an error of the crate.
fn refusal(e: &NtfsError, size: usize) -> u64 {
    match e {
        NtfsError::InvalidFileSignature { .. } => 2,
        NtfsError::InvalidAttributeLength { position, expected, actual } => {
            let at = position.value().map_or(0, |p| p.get()).wrapping_sub(RECORDS) % size as u64;
            match (size as u64 - at < 16, *expected == 16 && *actual < 16) {
                (true, _) => 3,
                (_, true) => 4,
                _ => 5,
            }
        }
        NtfsError::UnsupportedAttributeType { .. } => 6,
        NtfsError::InvalidAttributeNameOffset { .. } => 8,
        NtfsError::InvalidAttributeNameLength { .. } => 9,
        NtfsError::InvalidResidentAttributeValueOffset { .. } => 10,
        NtfsError::InvalidResidentAttributeValueLength { .. } => 11,
        NtfsError::InvalidNonResidentValueDataRange { .. } => 12,
        NtfsError::InvalidStructuredValueSize { .. } => 15,
        NtfsError::InvalidFileRecordNumber { .. } => 17,
        NtfsError::AttributeNotFound { .. } => 18,
        NtfsError::UnexpectedResidentAttribute { .. } => 19,
        NtfsError::Io(e) if e.to_string() == "shim: header cut" => 14,
        NtfsError::Io(e) if e.to_string() == "failed to fill whole buffer" => 16,
        NtfsError::Io(e) if e.to_string() == "no such record" => 17,
        _ => panic!("the crate says {e:?}"),
    }
}

/// Text in a buffer that is used again. Numbers of up to four digits are printed by the same steps as ours, longer ones
/// much like it, so that what is compared is the walk.
pub struct Text {
    bytes: Vec<u8>,
    end: usize,
}

impl Text {
    pub fn told(&self) -> &[u8] {
        &self.bytes[..self.end]
    }

    fn byte(&mut self, b: u8) {
        self.bytes[self.end] = b;
        self.end += 1;
    }

    fn words(&mut self, word: &[u8]) {
        self.bytes[self.end..][..word.len()].copy_from_slice(word);
        self.end += word.len();
    }

    fn two(&mut self, n: u64) {
        if n >= 10 {
            self.byte(b'0' + (n / 10) as u8);
        }
        self.byte(b'0' + (n % 10) as u8);
    }

    fn four(&mut self, n: u64) {
        if n < 100 {
            return self.two(n);
        }
        self.two(n / 100);
        self.byte(b'0' + (n / 10 % 10) as u8);
        self.byte(b'0' + (n % 10) as u8);
    }

    fn number(&mut self, n: u64) {
        if n < 10_000 {
            return self.four(n);
        }
        let (mut digits, mut at, mut n) = ([0u8; 20], 20, n);
        while n > 0 {
            at -= 1;
            digits[at] = b'0' + (n % 10) as u8;
            n /= 10;
        }
        self.words(&digits[at..]);
    }
}

fn put(out: &mut Text, word: &[u8], numbers: &[u64]) {
    out.words(word);
    for n in numbers {
        out.byte(b' ');
        out.number(*n);
    }
}

/// What the listing is made in, from one listing to the next.
pub struct Room {
    pub out: Text,
    parts: Vec<[u64; 5]>,
}

impl Room {
    pub fn of(bytes: usize) -> Room {
        Room { out: Text { bytes: vec![0; bytes], end: 0 }, parts: vec![] }
    }
}

/// The value of an item without a list.
fn value(out: &mut Text, a: &NtfsAttribute, size: usize) {
    let told = if a.is_resident() {
        probe::resident(a).map(|(at, n)| put(out, b" value resident", &[at as u64, n as u64]))
    } else {
        probe::runs(a).map(|(at, n)| {
            put(out, b" value runs", &[at as u64, n as u64]);
            put(out, b" size", &[probe::data_size(a)]);
        })
    };
    if let Err(e) = told {
        put(out, b" value refused", &[refusal(&e, size)]);
    }
}

/// The parts one after another, and the refusal that ends them.
fn gather(
    v: &mut NtfsAttributeListNonResidentAttributeValue,
    fs: &mut Volume,
    parts: &mut Vec<[u64; 5]>,
) -> Result<()> {
    let mut more = v.probe_has_part();
    while more {
        parts.push(v.probe_with_part(|p| {
            let (at, n) = probe::runs(p).unwrap();
            [probe::record(p), probe::offset(p) as u64, probe::lowest_vcn(p), at as u64, n as u64]
        })?);
        more = v.probe_next_attribute(fs)?;
    }
    Ok(())
}

/// The value of an item with a list; its parts are left for the lines to come.
fn parts(room: &mut Room, a: &NtfsAttribute, fs: &mut Volume) {
    room.parts.clear();
    let told = a.value(fs).and_then(|v| match v {
        NtfsAttributeValue::AttributeListNonResident(mut v) => gather(&mut v, fs, &mut room.parts).map(|()| v.len()),
        _ => unreachable!("an item with a list has parts"),
    });
    put(&mut room.out, b" value parts", &[room.parts.len() as u64]);
    match told {
        Ok(data) => put(&mut room.out, b" size", &[data]),
        Err(e) => put(&mut room.out, b" refused", &[refusal(&e, fs.size)]),
    }
}

fn item(room: &mut Room, a: &NtfsAttribute, fs: &mut Volume) {
    let head = [
        probe::record(a),
        probe::offset(a) as u64,
        probe::raw_ty(a) as u64,
        a.attribute_length() as u64,
        a.instance() as u64,
    ];
    put(&mut room.out, b"attr", &head);
    match probe::name(a) {
        Ok((at, n, _)) => put(&mut room.out, b" name", &[at as u64, n as u64]),
        Err(e) => put(&mut room.out, b" name refused", &[refusal(&e, fs.size)]),
    }
    if probe::in_list(a) {
        parts(room, a, fs);
        room.out.byte(b'\n');
        for p in &room.parts {
            put(&mut room.out, b"part", p);
            room.out.byte(b'\n');
        }
    } else {
        value(&mut room.out, a, fs.size);
        room.out.byte(b'\n');
    }
}

fn walk(ntfs: &Ntfs, fs: &mut Volume, room: &mut Room) -> Result<()> {
    let base = ntfs.file(fs, fs.base)?;
    let mut items = base.attributes();
    while let Some(i) = items.next(fs) {
        item(room, &i?.to_attribute()?, fs);
    }
    Ok(())
}

/// The listing without its count of reads, which the Rust does not have.
#[inline(never)]
pub fn list(ntfs: &Ntfs, fs: &mut Volume, room: &mut Room) {
    room.out.end = 0;
    put(&mut room.out, b"record", &[fs.base]);
    put(&mut room.out, b" size", &[fs.size as u64]);
    room.out.byte(b'\n');
    match walk(ntfs, fs, room) {
        Ok(()) => room.out.words(b"end"),
        Err(e) => put(&mut room.out, b"stopped", &[refusal(&e, fs.size)]),
    }
    room.out.byte(b'\n');
}

/// The same from the table's bytes on: its check and its volume too.
#[inline(never)]
pub fn list_table(table: &[u8], room: &mut Room) {
    let mut fs = Volume::of(table).expect("a table that passes 21");
    let ntfs = fs.ntfs();
    list(&ntfs, &mut fs, room);
}

/// No first run of a part is judged, as in our walk.
pub fn begin() {
    LENIENT.set(true);
}
