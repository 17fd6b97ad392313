//! Open nodes on the Rust's side: each hold is an `Arc` of its own, and a row is what the Rust keeps of that node in memory.
use crate::device::sum;
use crate::script::Handle;
use rcore_fs::vfs::INode;
use rcore_fs_sefs::INodeImpl;
use std::fmt::Write;
use std::sync::Arc;

pub const ROWS: usize = 34;
pub const HOLDS: usize = 32;
const ROW: usize = 117;
/// The table's bytes; a hold has 13 of them.
pub const TABLE: usize = ROW * ROWS + 13 * HOLDS + 8;
/// How many live holds an owner may have.
pub const OWN_HOLDS: usize = 8;

/// The Rust knows no owners: the script says who made a hold, and it is kept beside it.
struct Hold {
    row: usize,
    stamp: u64,
    owner: u8,
    node: Arc<dyn INode>,
}

/// A row as REPLAY.md writes it: id, dirty, the record's 112 bytes. All zero where it is free.
#[derive(Clone, Copy)]
pub struct Row([u8; ROW]);

impl Row {
    /// What a row of this node would be, by its record's 112 bytes.
    pub fn stored(id: u32, record: &[u8]) -> Row {
        Row([&id.to_le_bytes(), [0].as_slice(), record].concat().try_into().unwrap())
    }

    fn u32(&self, at: usize) -> u32 {
        u32::from_le_bytes(self.0[at..at + 4].try_into().unwrap())
    }

    fn u16(&self, at: usize) -> u16 {
        u16::from_le_bytes(self.0[at..at + 2].try_into().unwrap())
    }

    pub fn id(&self) -> u32 {
        self.u32(0)
    }

    pub fn size(&self) -> u64 {
        u64::from_le_bytes(self.0[5..13].try_into().unwrap())
    }

    pub fn kind(&self) -> u32 {
        self.u32(5 + 8)
    }

    pub fn links(&self) -> u16 {
        self.u16(5 + 14)
    }

    pub fn slots(&self) -> usize {
        self.u32(5 + 16) as usize
    }

    pub fn file(&self) -> [u8; 16] {
        self.0[5 + 80..5 + 96].try_into().unwrap()
    }
}

pub struct Table {
    rows: [Row; ROWS],
    holds: [Option<Hold>; HOLDS],
    next: u64,
    text: String,
}

impl Table {
    pub fn empty() -> Table {
        Table { rows: [Row([0; ROW]); ROWS], holds: [const { None }; HOLDS], next: 1, text: String::new() }
    }

    fn live(&self, h: Handle) -> Option<&Hold> {
        let hold = self.holds.get(h.hold as usize)?.as_ref()?;
        (hold.stamp == h.stamp).then_some(hold)
    }

    pub fn node(&self, h: Handle) -> Option<&Arc<dyn INode>> {
        self.live(h).map(|hold| &hold.node)
    }

    pub fn row(&self, h: Handle) -> Option<&Row> {
        self.live(h).map(|hold| &self.rows[hold.row])
    }

    pub fn row_of(&self, id: u32) -> Option<&Row> {
        self.rows.iter().find(|row| row.id() == id)
    }

    pub fn has(&self, id: u32) -> bool {
        self.row_of(id).is_some()
    }

    pub fn handles(&self) -> Vec<Handle> {
        let at = |(hold, h): (usize, &Option<Hold>)| h.as_ref().map(|h| Handle { hold: hold as u32, stamp: h.stamp });
        self.holds.iter().enumerate().filter_map(at).collect()
    }

    pub fn owner(&self, h: Handle) -> Option<u8> {
        self.live(h).map(|hold| hold.owner)
    }

    /// The live holds of one owner.
    pub fn own(&self, who: u8) -> Vec<Handle> {
        self.handles().into_iter().filter(|h| self.owner(*h) == Some(who)).collect()
    }

    /// A hold of its own for a node that root, find or create answered.
    pub fn take(&mut self, node: Arc<dyn INode>, owner: u8) -> Handle {
        let fresh = self.seen(&node);
        let row = match self.rows.iter().position(|row| row.id() == fresh.id()) {
            Some(row) => {
                let same = |h: &Hold| h.row != row || std::ptr::addr_eq(Arc::as_ptr(&h.node), Arc::as_ptr(&node));
                assert!(self.holds.iter().flatten().all(same), "one id, two nodes in memory");
                row
            }
            None => self.rows.iter().position(|row| row.id() == 0).unwrap(),
        };
        let hold = self.holds.iter().position(|h| h.is_none()).unwrap();
        let stamp = self.next;
        self.rows[row] = fresh;
        self.holds[hold] = Some(Hold { row, stamp, owner, node });
        self.next += 1;
        Handle { hold: hold as u32, stamp }
    }

    /// The `Arc` is dropped here, with all that its `Drop` does.
    pub fn close(&mut self, h: Handle) {
        let hold = self.holds[h.hold as usize].take().unwrap();
        if self.holds.iter().flatten().all(|other| other.row != hold.row) {
            self.rows[hold.row] = Row([0; ROW]);
        }
        drop(hold.node);
    }

    /// Leaves all nodes as they are, without their `Drop`: the host went down.
    pub fn forget(&mut self) {
        let old = std::mem::replace(self, Table::empty());
        std::mem::forget(old.holds);
    }

    /// Reads every row again from the Rust's memory.
    pub fn refresh(&mut self) {
        let mut done = [false; ROWS];
        for at in 0..HOLDS {
            let Some(hold) = &self.holds[at] else { continue };
            let row = hold.row;
            if !std::mem::replace(&mut done[row], true) {
                let node = hold.node.clone();
                self.rows[row] = self.seen(&node);
            }
        }
    }

    /// The record in memory, by the Rust's own `Debug`: its fields are private.
    fn seen(&mut self, node: &Arc<dyn INode>) -> Row {
        self.text.clear();
        write!(self.text, "{:?}", node.downcast_ref::<INodeImpl>().unwrap()).unwrap();
        row_of(&self.text)
    }

    pub fn bytes(&self) -> Vec<u8> {
        let mut out = Vec::with_capacity(TABLE);
        for row in &self.rows {
            out.extend(row.0);
        }
        for hold in &self.holds {
            let (row, stamp, owner) = hold.as_ref().map_or((0, 0, 0), |h| (h.row as u32, h.stamp, h.owner));
            out.extend(row.to_le_bytes());
            out.extend(stamp.to_le_bytes());
            out.push(owner);
        }
        out.extend(self.next.to_le_bytes());
        out
    }

    pub fn total(&self) -> u64 {
        sum(0, &self.bytes())
    }
}

/// A word of the text after each key, the keys in their order.
struct Words<'a>(&'a str);

impl<'a> Words<'a> {
    fn after(&mut self, key: &str) -> &'a str {
        let from = self.0.find(key).unwrap_or_else(|| panic!("no {key} in {}", self.0)) + key.len();
        let rest = &self.0[from..];
        let end = rest.find([',', ' ', '}', ')', ']']).unwrap_or(rest.len());
        self.0 = &rest[end..];
        &rest[..end]
    }

    fn number<T: std::str::FromStr>(&mut self, key: &str) -> T {
        let word = self.after(key);
        word.parse().unwrap_or_else(|_| panic!("{key} {word}"))
    }
}

fn row_of(text: &str) -> Row {
    let mut words = Words(text);
    let mut out = Vec::with_capacity(ROW);
    out.extend(words.number::<u32>("id: ").to_le_bytes());
    out.push((words.after("disk: [") == "Dirty") as u8);
    out.extend(words.number::<u64>("size: ").to_le_bytes());
    let kinds = ["Invalid", "File", "Dir", "SymLink", "Socket"];
    let word = words.after("type_: ");
    out.extend((kinds.iter().position(|k| *k == word).unwrap() as u32).to_le_bytes());
    out.extend(words.number::<u16>("mode: ").to_le_bytes());
    out.extend(words.number::<u16>("nlinks: ").to_le_bytes());
    for key in ["blocks: ", "uid: ", "gid: ", "pad: "] {
        out.extend(words.number::<u32>(key).to_le_bytes());
    }
    for _ in 0..3 {
        out.extend(words.number::<i64>(" sec: ").to_le_bytes());
        out.extend(words.number::<i64>("nsec: ").to_le_bytes());
    }
    for key in ["SefsUuid(", "inode_mac: "] {
        let word = words.after(key);
        out.extend((0..16).map(|i| u8::from_str_radix(&word[2 * i..2 * i + 2], 16).unwrap()));
    }
    Row(out.try_into().unwrap())
}
