//! Tables made for the measure: the same form in every record size, so that the cost of one read can be told as
//! records grow.

const DATA: u8 = 0x80;

/// The number of a table's first row; the others follow it one by one.
pub const FIRST_NUMBER: u64 = 40;

/// An empty record: the first attribute is to stand at 56, and all of the record is used.
fn record(size: usize) -> Vec<u8> {
    let mut r = vec![0u8; size];
    r[0..4].copy_from_slice(b"FILE");
    r[20] = 56;
    for at in [24, 28] {
        r[at..at + 4].copy_from_slice(&(size as u32).to_le_bytes());
    }
    r
}

/// An attribute's first 16 bytes.
fn head(ty: u8, length: usize, non_resident: u8, instance: usize) -> Vec<u8> {
    let mut a = vec![0u8; length];
    a[0] = ty;
    a[4..8].copy_from_slice(&(length as u32).to_le_bytes());
    a[8] = non_resident;
    a[14..16].copy_from_slice(&(instance as u16).to_le_bytes());
    a
}

/// A resident attribute with its value behind the header.
fn resident(ty: u8, instance: usize, value: &[u8]) -> Vec<u8> {
    let mut a = head(ty, 24 + value.len().next_multiple_of(8), 0, instance);
    a[16..20].copy_from_slice(&(value.len() as u32).to_le_bytes());
    a[20] = 24;
    a[24..24 + value.len()].copy_from_slice(value);
    a
}

/// A non-resident attribute with eight run bytes.
fn runs(instance: usize, lowest: usize) -> Vec<u8> {
    let mut a = head(DATA, 72, 1, instance);
    a[16..24].copy_from_slice(&(lowest as u64).to_le_bytes());
    a[32] = 64;
    a[48..56].copy_from_slice(&1_048_576u64.to_le_bytes());
    a[64..68].copy_from_slice(&[0x11, 8, 16, 0]);
    a
}

/// A list entry without a name, in 32 bytes.
fn entry(file: usize, instance: usize, lowest: usize) -> Vec<u8> {
    let mut e = vec![0u8; 32];
    e[0] = DATA;
    e[4] = 32;
    e[7] = 26;
    e[8..16].copy_from_slice(&(lowest as u64).to_le_bytes());
    e[16..22].copy_from_slice(&(file as u64).to_le_bytes()[..6]);
    e[24..26].copy_from_slice(&(instance as u16).to_le_bytes());
    e
}

/// A record of these attributes and the end marker.
fn filled(size: usize, attributes: &[Vec<u8>]) -> Vec<u8> {
    let (mut r, all) = (record(size), attributes.concat());
    r[56..56 + all.len()].copy_from_slice(&all);
    r[56 + all.len()..][..4].fill(0xFF);
    r
}

/// As many small attributes as a record holds.
fn full(size: usize) -> Vec<u8> {
    let most = (size - 56 - 4) / 24;
    filled(size, &(0..most).map(|i| resident(DATA, i, &[])).collect::<Vec<_>>())
}

/// A record with one list, as long as there is room for.
fn listing(size: usize, of: impl Fn(usize) -> Vec<u8>) -> Vec<u8> {
    let most = (size - 56 - 24 - 4) / 32;
    let list = (0..most).map(of).collect::<Vec<_>>().concat();
    filled(size, &[resident(0x20, 0, &list)])
}

/// A table of these records, numbered from the first number on; the first is the base. Rows past the last record have
/// the last one's bytes.
fn table(size: usize, records: &[Vec<u8>], rows: usize) -> Vec<u8> {
    let start = 20 + 12 * rows;
    let mut t = [rows, size, 20, start, 0].iter().flat_map(|n| (*n as u32).to_le_bytes()).collect::<Vec<_>>();
    for i in 0..rows {
        t.extend((FIRST_NUMBER + i as u64).to_le_bytes());
        t.extend(((start + size * i.min(records.len() - 1)) as u32).to_le_bytes());
    }
    t.extend(records.concat());
    t
}

/// A record full of attributes and no list: one read an item.
pub fn raw(size: usize) -> Vec<u8> {
    table(size, &[full(size)], 1)
}

/// A list whose entries lead to the last attribute of full records, three of them in turn: a whole record is searched
/// for each.
pub fn searched(size: usize) -> Vec<u8> {
    let last = (size - 56 - 4) / 24 - 1;
    let base = listing(size, |i| entry(41 + i % 3, last, 0));
    table(size, &[base, full(size), full(size), full(size)], 4)
}

/// A list of one stream, its parts in eight records in turn, each found at once. It is one by type and name, the first
/// entry alone being from VCN 0 on, and by type and instance.
pub fn parts(size: usize) -> Vec<u8> {
    let mut records = vec![listing(size, |i| entry(41 + i % 8, 3, i))];
    records.extend((0..8).map(|i| filled(size, &[runs(3, 8 * i)])));
    table(size, &records, 9)
}

/// A list whose entries lead to the first attribute of the last of many rows.
pub fn rows(rows: usize) -> Vec<u8> {
    let base = listing(1024, |i| entry(40 + rows - 1 - i, 0, 0));
    table(1024, &[base, full(1024)], rows)
}
