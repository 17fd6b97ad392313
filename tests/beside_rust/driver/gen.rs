//! Long random sequences: each next call is drawn with a look at the open nodes and folders as they are on the Rust's side, so that
//! most calls find something to do.
use crate::script::{Call, Command, Handle};
use crate::table::OWN_HOLDS;
use crate::world::{Line, World};
use rcore_fs::vfs::Timespec;

/// splitmix64.
pub struct Dice(pub u64);

impl Dice {
    pub fn next(&mut self) -> u64 {
        self.0 = self.0.wrapping_add(0x9e37_79b9_7f4a_7c15);
        let z = (self.0 ^ self.0 >> 30).wrapping_mul(0xbf58_476d_1ce4_e5b9);
        let z = (z ^ z >> 27).wrapping_mul(0x94d0_49bb_1331_11eb);
        z ^ z >> 31
    }

    pub fn below(&mut self, n: usize) -> usize {
        (self.next() % n as u64) as usize
    }

    /// True once in n.
    pub fn once(&mut self, n: usize) -> bool {
        self.below(n) == 0
    }

    pub fn of<T: Clone>(&mut self, all: &[T]) -> T {
        all[self.below(all.len())].clone()
    }
}

/// What a sequence is like; drawn from its seed.
struct Plan {
    blocks: usize,
    /// Names in use are the first so many of an endless list.
    names: usize,
    /// Nodes that are made first, so that the first group runs out.
    fill: usize,
    /// Bits of the first group that are left set by pokes before the sequence; None without pokes.
    left: Option<usize>,
    /// Names with a slash are there, by pokes before the sequence: no call stores one.
    slashes: bool,
    /// Sockets are there, by pokes before the sequence: no call makes one.
    sockets: bool,
    /// Now and then some stored bytes are changed from outside, and the calls go on from there for a while.
    hurt: bool,
    /// No open.
    premise: bool,
}

/// The plan for this seed: small and roomy images by turns; one in sixteen with the first group's map filled by pokes, one in sixteen
/// with slashes in stored names, one in sixteen with stored sockets, one in sixteen hurt, and one in 64 filled by creating, if there are calls enough.
fn plan(seed: u64, calls: usize, dice: &mut Dice) -> Plan {
    let premise = seed % 2 == 0;
    if seed % 64 == 63 && calls >= 2500 {
        let (blocks, fill) = (2400 + dice.below(1600), 1000 + dice.below(40));
        return Plan { blocks, names: 60, fill, left: None, slashes: false, sockets: false, hurt: false, premise };
    }
    if seed % 16 == 13 {
        return Plan { blocks: 24 + dice.below(16), names: 8, fill: 0, left: None, slashes: false, sockets: false, hurt: true, premise };
    }
    let blocks = match seed / 2 % 4 {
        0 => 20 + dice.below(50),
        1 => 128,
        2 => 90 + dice.below(80),
        _ => 300,
    };
    let left = (seed % 16 == 11).then(|| dice.below(6));
    let (slashes, sockets, names) = (seed % 16 == 5, seed % 16 == 3, 3 + dice.below(20));
    Plan { blocks, names: if slashes { names.max(15) } else { names }, fill: 0, left, slashes, sockets, hurt: false, premise }
}

/// A side that goes along in the same process: it hears of each command and call, and of what is said of it on the Rust's side. It walks by opening what is
/// on its way, so no walk is drawn where the owner has no places for that.
pub trait Beside {
    fn outside(&mut self, command: &Command);
    fn call(&mut self, who: u8, call: &Call, line: &Line, world: &mut World);
}

pub struct Sequence<'a> {
    world: World,
    beside: Option<&'a mut dyn Beside>,
    dice: Dice,
    plan: Plan,
    pub script: Vec<u8>,
    pub lines: Vec<Line>,
    /// Who asks.
    who: u8,
    /// How many holds each owner keeps, for a while.
    holds: usize,
    made: u64,
    closed: Vec<Handle>,
    /// Only calls that the Rust answered go into the script.
    answered: bool,
}

fn begin<'a>(seed: u64, calls: usize, answered: bool) -> Sequence<'a> {
    let mut dice = Dice(seed);
    let plan = plan(seed, calls, &mut dice);
    let (script, lines, closed) = (vec![], vec![], vec![]);
    Sequence { world: World::new(), beside: None, dice, plan, script, lines, who: 1, holds: 8, made: 0, closed, answered }
}

/// Short runs on one image after the other, as many as go into `bytes` bytes, of calls that the Rust answered.
pub fn sample<'a>(seed: u64, bytes: usize) -> Sequence<'a> {
    let mut s = begin(seed, 0, true);
    for part in seed.. {
        s.plan = plan(part, 0, &mut s.dice);
        s.plan.blocks = s.plan.blocks.min(128);
        let (begun, until) = (s.lines.len(), s.lines.len() + 100);
        while s.lines.len() < until {
            let (script, lines) = (s.script.len(), s.lines.len());
            if lines == begun {
                s.start();
            } else {
                s.step();
            }
            if s.script.len() > bytes {
                s.script.truncate(script);
                s.lines.truncate(lines);
                return s;
            }
        }
    }
    s
}

pub fn sequence<'a>(seed: u64, calls: usize, beside: Option<&'a mut dyn Beside>) -> Sequence<'a> {
    let mut s = Sequence { beside, ..begin(seed, calls, false) };
    s.start();
    while s.lines.len() < calls && s.step() {
        if s.plan.hurt && s.dice.once(60) {
            s.hurt();
        }
        if s.lines.len() % 8 == 0 && s.beside.is_none() {
            s.full_path();
        }
    }
    s.call(Call::Sync);
    s.call(Call::Check);
    s
}

impl Sequence<'_> {
    fn call(&mut self, call: Call) -> bool {
        if self.answered && self.world.moved_folder(&call).is_some() {
            return true;
        }
        let line = self.world.call(self.who, &call);
        let on = !matches!(line, Line::Lost(_));
        if let Some(beside) = &mut self.beside {
            beside.call(self.who, &call, &line, &mut self.world);
        }
        if !self.answered || matches!(line, Line::Same(_) | Line::Both(_)) {
            call.write(self.who, &mut self.script);
            self.lines.push(line);
        }
        on
    }

    fn outside(&mut self, command: Command) {
        command.write(&mut self.script);
        if let Some(beside) = &mut self.beside {
            beside.outside(&command);
        }
        self.world.outside(&command);
    }

    /// Every hold is closed, by its owner; each stays once in `but`, where that is not 0.
    fn close_all(&mut self, but: usize) {
        for h in self.world.table.handles() {
            if but == 0 || !self.dice.once(but) {
                self.who = self.world.table.owner(h).unwrap();
                self.call(Call::Close(h));
            }
        }
    }

    fn start(&mut self) {
        self.who = 1;
        self.outside(Command::Zeros(512 * self.plan.blocks));
        let (time, file) = (self.time(), self.file());
        self.call(Call::Format(time, file));
        if let Some(left) = self.plan.left {
            self.fill_map(left);
        }
        self.call(Call::Root);
        if self.plan.slashes {
            self.slash();
        }
        if self.plan.sockets {
            self.sockets();
        }
        for _ in 0..self.plan.fill {
            self.fill();
        }
    }

    /// A file, a folder and a symlink whose names have a slash, as `listed` has them: stored with another byte there, and changed by pokes.
    fn slash(&mut self) {
        let root = self.world.table.handles()[0];
        for (n, kind) in [(0, 1), (1, 2), (2, 3)] {
            let (time, file) = (self.time(), self.file());
            self.call(Call::Create(root, format!("x-y{n}").into_bytes(), kind, 420, time, file));
        }
        self.close_all(0);
        let arena = self.world.arena();
        for (k, block) in arena.chunks(512).enumerate() {
            let places: Vec<usize> = (24..501).filter(|p| block[0] == 2 && block[*p..].starts_with(b"x-y")).collect();
            self.change(k, |payload| places.iter().for_each(|p| payload[p - 24 + 1] = b'/'));
        }
        self.call(Call::Open);
        self.call(Call::Root);
    }

    /// Three sockets with names as `listed` has them: the Rust makes them, and the script gets what changed as pokes.
    fn sockets(&mut self) {
        self.close_all(0);
        let before = self.world.arena();
        for name in ["a0", "B0", "é0"] {
            let (time, file) = (self.time(), self.file());
            self.world.old_socket(name, time, file);
        }
        let after = self.world.arena();
        for k in (0..after.len()).filter(|k| before[*k] != after[*k]) {
            self.outside(Command::Poke(k, after[k]));
        }
        self.call(Call::Open);
        self.call(Call::Root);
    }

    /// Clears the first map but for its last bits, as if the group were in use, and opens the image so made.
    fn fill_map(&mut self, left: usize) {
        let data = |b: &[u8]| b[0] == 2 && b[1] == 0 && b[20..24] == [0; 4];
        let k = self.world.arena().chunks(512).position(data).unwrap();
        self.change(k, |payload| {
            payload[8..12].copy_from_slice(&(left as u32).to_le_bytes());
            payload[128..256].fill(0);
            (1024 - left..1024).for_each(|id| payload[128 + id / 8] |= 1 << (id % 8));
        });
        self.call(Call::Open);
    }

    /// Changes the payload of block k by pokes, its check with it.
    fn change(&mut self, k: usize, edit: impl FnOnce(&mut [u8])) {
        let old = self.world.arena()[512 * k..512 * (k + 1)].to_vec();
        let mut new = old.clone();
        edit(&mut new[24..504]);
        let check: u32 = new[..508].iter().zip(1u32..).map(|(b, i)| i * *b as u32).sum();
        new[508..].copy_from_slice(&check.to_le_bytes());
        for i in (0..512).filter(|i| old[*i] != new[*i]) {
            self.outside(Command::Poke(512 * k + i, new[i]));
        }
    }

    /// Some fields of what is stored get other values, and the image is opened and called for a while; then all is as before or fresh.
    fn hurt(&mut self) {
        self.close_all(30);
        self.call(Call::Sync);
        let before = self.world.arena();
        for _ in 0..1 + self.dice.below(3) {
            let datas: Vec<usize> = (0..before.len() / 512).filter(|k| before[512 * k] == 2).collect();
            let k = self.dice.of(&datas);
            let (at, bytes) = if before[512 * k + 1] == 0 { self.meta_field() } else { self.slot_field() };
            let number = |k: usize| u32::from_le_bytes(before[512 * k + 20..512 * k + 24].try_into().unwrap()) as usize;
            let is_head = |h: &usize| before[512 * h] == 1 && before[512 * h + 1..512 * h + 20] == before[512 * k + 1..512 * k + 20];
            let length = (0..before.len() / 512).find(is_head).map_or(0, number);
            let own = 480 * number(k)..length.min(480 * number(k) + 480);
            // A field of the file, as far as it lies in this block.
            self.change(k, |payload| {
                let here = (at..at + bytes.len()).zip(&bytes).filter(|(p, _)| own.contains(p));
                here.for_each(|(p, b)| payload[p - own.start] = *b);
            });
        }
        self.call(Call::Open);
        self.call(Call::Root);
        for _ in 0..30 {
            self.step();
        }
        if self.dice.once(4) {
            self.outside(Command::Arena(before));
            self.call(Call::Open);
        } else {
            let (time, file) = (self.time(), self.file());
            self.call(Call::Format(time, file));
        }
        self.call(Call::Root);
    }

    fn odd(&mut self) -> u32 {
        let all = [0, 1, 2, 3, 4, 5, 6, 7, 255, 1023, 1024, 1025, 65535, u32::MAX];
        self.dice.of(&all)
    }

    /// A field of the superblock, the first map or one of the first records.
    fn meta_field(&mut self) -> (usize, Vec<u8>) {
        let number = self.odd().to_le_bytes().to_vec();
        let record = 128 * (2 + self.dice.below(9));
        match self.dice.below(13) {
            0 => (4 * self.dice.below(4), number),
            1 => (128 + self.dice.below(2), vec![self.dice.next() as u8]),
            2 | 3 => (record + 8, number),
            4 | 5 => (record + 14, number[..2].to_vec()),
            6 | 7 => (record + 16, number),
            8 => (record + 80 + self.dice.below(16), vec![self.dice.next() as u8]),
            9 => (record + 14, vec![0, 0]),
            10 => (record + 14, vec![255, 255]),
            11 => (record, [number, self.dice.of(&[vec![0; 4], vec![0; 4], vec![255; 4]])].concat()),
            _ => (record + self.dice.below(112), vec![self.dice.next() as u8]),
        }
    }

    /// A field of one of the first slots.
    fn slot_field(&mut self) -> (usize, Vec<u8>) {
        let number = self.odd().to_le_bytes().to_vec();
        let slot = 264 * self.dice.below(6);
        match self.dice.below(6) {
            0 | 1 => (slot, number),
            2 => (slot + 260, number),
            3 => (slot + 4 + self.dice.below(6), vec![self.dice.of(&[0, b'.', b'a', b'0', b'/', 255, 0xc3])]),
            4 => (slot + 4, self.listed()),
            _ => (slot + self.dice.below(264), vec![self.dice.next() as u8]),
        }
    }

    /// One more node, mostly in the folder made last.
    fn fill(&mut self) {
        let live = self.world.table.own(self.who);
        let folders: Vec<Handle> = live.iter().copied().filter(|h| self.is_folder(*h)).collect();
        let h = if self.dice.once(4) { self.dice.of(&folders) } else { *folders.last().unwrap() };
        let kind = if folders.len() < 7 && self.dice.once(60) { 2 } else { self.dice.of(&[1, 1, 3]) };
        let name = format!("node {}", self.made).into_bytes();
        let (time, file) = (self.time(), self.file());
        self.call(Call::Create(h, name, kind, 420, time, file));
        if kind != 2 {
            let last = self.world.table.own(self.who).into_iter().find(|h| !live.contains(h));
            last.map(|h| self.call(Call::Close(h)));
        }
    }

    fn step(&mut self) -> bool {
        if self.dice.once(60) {
            self.holds = self.dice.of(&[1, 2, 4, 6, 7, 99]);
        }
        self.who = if self.dice.once(4) { self.dice.of(&[1, 1, 2, 3, 4]) } else { self.who.clamp(1, 4) };
        let call = self.draw();
        if call.asks() && self.dice.once(300) {
            self.who = self.dice.of(&[0, 1, 2, 3, 4, 5, 255]);
        }
        if let Call::Close(h) = &call {
            self.closed.push(*h);
        }
        self.call(call)
    }

    fn draw(&mut self) -> Call {
        let live = self.world.table.own(self.who);
        if live.is_empty() {
            return Call::Root;
        }
        if live.len() > self.holds && !self.dice.once(3) {
            return Call::Close(self.dice.of(&live));
        }
        if !live.iter().any(|h| self.is_folder(*h)) && !self.dice.once(3) {
            return Call::Root;
        }
        if self.world.free_blocks() < 4 && self.dice.once(2) {
            return if self.dice.once(2) { self.remove() } else { Call::Close(self.dice.of(&live)) };
        }
        // Samples are from before order 7, and stay what they are.
        if !self.answered && !self.links(true).is_empty() && self.dice.once(2) {
            return self.aim();
        }
        match self.dice.below(if self.answered { 1300 } else { 1550 }) {
            0..=19 => Call::Root,
            20..=189 => self.find(),
            190..=399 => self.create(),
            400..=479 => self.link(),
            480..=629 => self.remove(),
            630..=799 => self.moving(),
            800..=829 => Call::Metadata(self.any()),
            830..=869 => self.set(),
            870..=894 => self.entry(),
            895..=924 => self.list(),
            925..=939 => Call::Sync,
            940..=987 => Call::Close(self.any()),
            988..=995 => Call::Check,
            996..=998 if !self.plan.premise => Call::Open,
            996..=999 => Call::Metadata(self.any()),
            1300..=1469 if self.beside.is_none() || live.len() + 4 <= OWN_HOLDS => self.walk(),
            1300..=1469 => self.find(),
            1470..=1549 => self.aim(),
            _ => self.contents(),
        }
    }

    fn is_folder(&self, h: Handle) -> bool {
        self.world.table.row(h).is_some_and(|row| row.kind() == 2)
    }

    /// A live hold of who asks; now and then another's, or one that is none.
    fn any(&mut self) -> Handle {
        let others = self.dice.once(100);
        let h = self.dice.of(&if others { self.world.table.handles() } else { self.world.table.own(self.who) });
        match self.dice.below(400) {
            0 => Handle { hold: h.hold, stamp: h.stamp + 1 },
            1 => Handle { hold: h.hold, stamp: 0 },
            2 => Handle { hold: 32 + h.hold, stamp: h.stamp },
            3..=5 if !self.closed.is_empty() => self.dice.of(&self.closed),
            _ => h,
        }
    }

    /// A folder's hold, mostly of one that is not removed.
    fn folder(&mut self) -> Handle {
        let live = self.world.table.own(self.who);
        let folders: Vec<Handle> = live.into_iter().filter(|h| self.is_folder(*h)).collect();
        let linked = |h: &Handle| self.world.table.row(*h).is_some_and(|row| row.links() > 0);
        let named: Vec<Handle> = folders.iter().copied().filter(linked).collect();
        if folders.is_empty() || self.dice.once(40) {
            return self.any();
        }
        let removed = named.is_empty() || self.dice.once(15);
        self.dice.of(if removed { &folders } else { &named })
    }

    /// The same, of a folder that has something in it, if there is one.
    fn filled(&mut self) -> Handle {
        let live = self.world.table.own(self.who);
        let filled: Vec<Handle> = live.into_iter().filter(|h| self.world.slots(*h).len() > 2).collect();
        match filled.is_empty() || self.dice.once(10) {
            true => self.folder(),
            false => self.dice.of(&filled),
        }
    }

    /// A hold of another folder than h's, if a few throws find one.
    fn other(&mut self, h: Handle) -> Handle {
        let id = |s: &Sequence, h: Handle| s.world.table.row(h).map(|row| row.id());
        let throws: [Handle; 4] = std::array::from_fn(|_| self.folder());
        throws.into_iter().find(|t| id(self, *t) != id(self, h)).unwrap_or(h)
    }

    /// A name of a folder's slots, once in `new` one from the list of names, and rarely one that is special.
    fn name(&mut self, h: Handle, new: usize) -> Vec<u8> {
        let later: Vec<Vec<u8>> = self.world.slots(h).into_iter().skip(2).map(|s| s.name).collect();
        if self.dice.once(25) {
            return self.special();
        }
        if later.is_empty() || self.dice.once(new) {
            return self.listed();
        }
        self.dice.of(&later)
    }

    fn listed(&mut self) -> Vec<u8> {
        let starts = ["a", "B", "é", "glyph ", "山", "𝔘", "x/y", "\u{7f}"];
        match self.dice.below(self.plan.names) {
            0 if self.dice.once(4) => vec![b'l'; 255],
            n => format!("{}{}", starts[n % 8], n / 8).into_bytes(),
        }
    }

    fn special(&mut self) -> Vec<u8> {
        let long = |n: usize, with: &str| with.repeat(n / with.len()).into_bytes();
        let all: [Vec<u8>; 16] = [
            b".".into(),
            b"..".into(),
            b"".into(),
            b"...".into(),
            long(255, "€"),
            long(256, "𝔘"),
            long(256, "w"),
            long(1024, "ab"),
            b"zero\0inside".into(),
            b"\0".into(),
            b"\xff".into(),
            b"cut \xe2\x82".into(),
            b"\xc0\xaf".into(),
            b"\xed\xa0\x80".into(),
            b"\xf4\x90\x80\x80".into(),
            b"/".into(),
        ];
        // The dots are worth more turns than the rest.
        match self.dice.below(5) {
            0..=2 => all[self.dice.below(3)].clone(),
            _ => self.dice.of(&all),
        }
    }

    fn time(&mut self) -> Timespec {
        let ends = [0, 1, -1, i64::MIN, i64::MAX, 1_763_200_000, -2_208_988_800];
        match self.dice.once(3) {
            true => Timespec { sec: self.dice.next() as i64, nsec: self.dice.next() as i64 },
            false => Timespec { sec: self.dice.of(&ends), nsec: self.dice.of(&ends) },
        }
    }

    /// A new file name, which now and then is one that is there.
    fn file(&mut self) -> [u8; 16] {
        let live = self.world.table.handles();
        if !live.is_empty() && self.dice.once(70) {
            let h = self.dice.of(&live);
            return self.world.table.row(h).unwrap().file();
        }
        self.made += 1;
        let mut file = [0; 16];
        file[..8].copy_from_slice(&self.dice.next().to_le_bytes());
        file[8..].copy_from_slice(&self.made.to_le_bytes());
        file
    }

    fn find(&mut self) -> Call {
        let h = self.folder();
        match self.dice.below(8) {
            0 => Call::Find(h, b"..".into()),
            1 => Call::Find(h, self.dice.of(&[b".".to_vec(), vec![]])),
            _ => Call::Find(h, self.name(h, 5)),
        }
    }

    fn create(&mut self) -> Call {
        let h = self.folder();
        let kind = self.dice.of(&[1, 1, 1, 1, 2, 2, 2, 2, 3, 3]);
        let kind = if self.dice.once(80) { self.dice.of(&[0, 4, 4, 5, u32::MAX]) } else { kind };
        let name = if self.dice.once(30) { self.name(h, 3) } else { self.listed() };
        Call::Create(h, name, kind, self.dice.next() as u16, self.time(), self.file())
    }

    /// A walk by path, mostly from a folder.
    fn walk(&mut self) -> Call {
        let h = if self.dice.once(12) { self.any() } else { self.filled() };
        let from = self.world.table.row(h).map_or(2, |row| row.id());
        let path = match self.dice.below(12) {
            0 => self.bad_path(from),
            1 | 2 => self.many_links(from),
            _ => self.path(from, 4, 6),
        };
        Call::Walk(h, path, self.dice.of(&[8192, 8192, 8192, 8192, 8192, 8192, 300, 40, 12, 4, 1, 0]))
    }

    /// The path of an open node, mostly asked by its owner. It takes nothing from the dice, so that a seed's sequence stays what it was.
    fn full_path(&mut self) {
        let (n, handles) = (self.lines.len() / 8, self.world.table.handles());
        if handles.is_empty() {
            return;
        }
        let (h, who) = (handles[n % handles.len()], self.who);
        if n % 20 != 0 {
            self.who = self.world.table.owner(h).unwrap();
        }
        self.call(Call::Path(h, [8192, 8192, 300, 40, 12, 8, 4, 2, 1, 0][n % 10]));
        self.who = who;
    }

    /// The holds of symlinks that who asks has: all, or those that have no target yet.
    fn links(&self, fresh: bool) -> Vec<Handle> {
        let row = |h: &Handle| self.world.table.row(*h).is_some_and(|row| row.kind() == 3 && (!fresh || row.size() == 0));
        self.world.table.own(self.who).into_iter().filter(row).collect()
    }

    /// A symlink gets a target, mostly one that has none; where there is no symlink, one is made.
    fn aim(&mut self) -> Call {
        let (links, fresh) = (self.links(false), self.links(true));
        if fresh.is_empty() && !links.is_empty() && self.dice.once(2) {
            return Call::Resize(self.dice.of(&links), 0);
        }
        if fresh.is_empty() && (links.is_empty() || self.dice.once(2)) {
            let h = self.folder();
            return Call::Create(h, self.listed(), 3, 511, self.time(), self.file());
        }
        let h = self.dice.of(if fresh.is_empty() { &links } else { &fresh });
        let from = self.home(h);
        let target = match self.dice.below(14) {
            0 => self.bad_path(from),
            1 | 2 => self.dice.of(&[b".".to_vec(), b"..".to_vec(), b"/".to_vec()]),
            // From root it leads there wherever the symlink is.
            _ => self.path(from, 2, 0),
        };
        Call::Write(h, 0, target)
    }

    /// The number of an open folder that has a name of this node, or of any.
    fn home(&mut self, h: Handle) -> u32 {
        let id = |s: &Sequence, h: Handle| s.world.table.row(h).map_or(2, |row| row.id());
        let node = id(self, h);
        let named = |f: &Handle| self.world.slots(*f).iter().any(|slot| slot.id == node);
        let home = self.world.table.handles().into_iter().find(named);
        let folder = home.unwrap_or_else(|| self.folder());
        id(self, folder)
    }

    /// A path of a few parts: mostly along what is stored, from this folder, or once in `root` from root; `links` of 16 parts are a
    /// symlink where there is one.
    fn path(&mut self, from: u32, root: usize, links: usize) -> Vec<u8> {
        let root = self.dice.once(root);
        let start = if root { 2 } else { from };
        let (mut at, mut parts) = (start, vec![]);
        loop {
            let (part, id, kind) = self.part(at, links);
            parts.push(part);
            // After a symlink it may go on anywhere, after a file nowhere.
            let on = match kind {
                2 => !self.dice.once(3),
                3 => self.dice.once(2),
                _ => self.dice.once(12),
            };
            if !on || parts.len() == 6 {
                break;
            }
            at = if kind == 2 { id } else { self.dice.of(&[2, start, at]) };
        }
        let text = parts.join(&b'/');
        if root {
            [b"/", text.as_slice()].concat()
        } else {
            text
        }
    }

    /// A part to look up in this folder, and what has that name there: its number and type, or 0.
    fn part(&mut self, at: u32, links: usize) -> (Vec<u8>, u32, u32) {
        let slots = self.world.slots_of(at);
        let later: Vec<Vec<u8>> = slots.iter().skip(2).map(|s| s.name.clone()).collect();
        let aimed: Vec<Vec<u8>> = slots.iter().filter(|s| s.kind == 3).map(|s| s.name.clone()).collect();
        let part = match self.dice.below(16) {
            0 => b".".to_vec(),
            1 => b"..".to_vec(),
            2 => self.listed(),
            n if n < 3 + links && !aimed.is_empty() => self.dice.of(&aimed),
            _ if later.is_empty() => self.listed(),
            _ => self.dice.of(&later),
        };
        let here = slots.iter().find(|s| s.name == part);
        here.map_or((part.clone(), 0, 0), |s| (part, s.id, s.kind))
    }

    /// The same symlink over and over, up to one more than may be followed; or no part but dots, up to the longest path.
    fn many_links(&mut self, from: u32) -> Vec<u8> {
        let links: Vec<Vec<u8>> = self.world.slots_of(from).into_iter().filter(|s| s.kind == 3).map(|s| s.name).collect();
        if links.is_empty() || self.dice.once(6) {
            let most = self.dice.of(&[3, 20, 300, 2047, 2048, 2049, 4095]);
            return vec![b".".as_slice(); 1 + most].join(&b'/');
        }
        let (first, other) = (self.dice.of(&links), self.dice.of(&links));
        let count = self.dice.of(&[2, 3, 7, 8, 8, 9, 9, 10]);
        let parts: Vec<Vec<u8>> = (0..count).map(|_| self.dice.of(&[first.clone(), first.clone(), other.clone()])).collect();
        parts.join(&b'/')
    }

    /// A text with an empty part, a special name or a byte that no text has; now and then a lone slash, which is good.
    fn bad_path(&mut self, from: u32) -> Vec<u8> {
        let (good, special) = (self.path(from, 4, 6), self.special());
        let slash = b"/".as_slice();
        match self.dice.below(8) {
            0 => [good.as_slice(), slash].concat(),
            1 => [slash, slash, &good].concat(),
            2 => [good.as_slice(), slash, slash, &good].concat(),
            3 => [good.as_slice(), slash, &special].concat(),
            4 => [special.as_slice(), slash, &good].concat(),
            5 => self.dice.of(&[vec![], slash.to_vec(), b"//".to_vec()]),
            6 => [good.as_slice(), b"\0"].concat(),
            _ => special,
        }
    }

    /// A hold of a node that is no folder, if there is one.
    fn other_kind(&mut self) -> Handle {
        let live = self.world.table.own(self.who);
        let others: Vec<Handle> = live.iter().copied().filter(|h| !self.is_folder(*h)).collect();
        if others.is_empty() || self.dice.once(20) {
            self.any()
        } else {
            self.dice.of(&others)
        }
    }

    fn link(&mut self) -> Call {
        let h = self.folder();
        let node = self.other_kind();
        let name = if self.dice.once(15) { self.name(h, 3) } else { self.listed() };
        Call::Link(h, name, node)
    }

    /// Mostly by the call for what has the name.
    fn remove(&mut self) -> Call {
        let h = self.filled();
        let name = self.name(h, 8);
        let folder = self.world.slots(h).iter().any(|slot| slot.name == name && slot.kind == 2);
        if folder != self.dice.once(10) {
            Call::RemoveFolder(h, name)
        } else {
            Call::RemoveFile(h, name)
        }
    }

    fn moving(&mut self) -> Call {
        let h = self.filled();
        let target = if self.dice.once(3) { h } else { self.other(h) };
        let old = self.name(h, 12);
        Call::Move(h, old, target, self.name(target, 2))
    }

    fn set(&mut self) -> Call {
        let big = [0, 1, 1000, u32::MAX as u64, 1 << 32, u64::MAX];
        let (uid, gid) = (self.dice.of(&big), self.dice.of(&big));
        let times = [self.time(), self.time(), self.time()];
        Call::Set(self.any(), self.dice.next() as u16, uid, gid, times)
    }

    fn place(&mut self, h: Handle) -> (u64, u16) {
        let slots = self.world.slots(h).len();
        let at = if self.dice.once(20) { self.dice.of(&[u64::MAX, 1 << 32]) } else { self.dice.below(slots + 2) as u64 };
        (at, self.dice.of(&[8192, 8192, 264, 528, 263, 0, 1000, 2640]))
    }

    fn entry(&mut self) -> Call {
        let h = self.folder();
        let (at, room) = self.place(h);
        Call::Entry(h, at, room)
    }

    fn list(&mut self) -> Call {
        let h = self.folder();
        let (at, room) = self.place(h);
        let at = if self.dice.once(4) { self.dice.below(3) as u64 } else { at };
        Call::List(h, at, self.dice.of(&[0, 0, 1, 255]), room)
    }

    /// A place in a node's contents: in and around what it has, at the border of a block, and now and then far off.
    fn offset(&mut self, h: Handle) -> u64 {
        let size = self.world.table.row(h).map_or(0, |row| row.size());
        if !self.plan.hurt && self.dice.once(30) {
            return self.far();
        }
        let near = self.dice.below(40) as u64;
        match self.dice.below(10) {
            0 | 1 => 0,
            2 | 3 => size.min(20_000),
            4 => size.saturating_sub(near),
            5 => size.min(20_000) + near,
            6 | 7 => (480 * self.dice.below(12) as u64 + near % 5).saturating_sub(2),
            8 => self.dice.below(20_000) as u64,
            _ => self.dice.below(1000) as u64,
        }
    }

    /// Around the longest length that a file can have, beyond it, and at the end of all numbers.
    fn far(&mut self) -> u64 {
        let near = self.dice.of(&[0, 0, 1, 2, 300, 480, 8192]);
        match self.dice.below(6) {
            0..=2 => u32::MAX as u64 - near,
            3 => u32::MAX as u64 + 1 + near,
            4 => self.dice.next() >> 33,
            _ => u64::MAX - near,
        }
    }

    /// How many bytes to read or write: up to 8,192, mostly fewer.
    fn amount(&mut self) -> usize {
        match self.dice.below(40) {
            0 => 8192,
            1 | 2 => self.dice.below(8193),
            3..=12 => self.dice.below(600),
            _ => self.dice.of(&[0, 0, 1, 2, 16, 100, 112, 264, 479, 480, 481, 960]),
        }
    }

    /// A range of a file, in any mode: mostly of whole pieces within what it has, now and then at any place, empty, past its end or far off.
    fn range(&mut self, h: Handle) -> Call {
        let pieces = self.world.table.row(h).map_or(0, |row| row.size()).min(20_000) / 128;
        let mode = self.dice.of(&[0, 1, 2, 3, 4, 4, 4, 5, 5, 5]);
        let from = if self.dice.once(6) { self.offset(h) } else { 128 * self.dice.below(pieces as usize + 2) as u64 };
        let length = match self.dice.below(12) {
            0 if !self.plan.hurt => self.far(),
            0 | 1 => self.amount() as u64,
            2 => 0,
            _ => 128 * self.dice.of(&[1, 1, 1, 2, 3, 4, 5, 8, 15, 30]),
        };
        Call::Fallocate(h, mode, self.dice.of(&[0, 0, 1, 64, 255]), from, length)
    }

    /// A read, write, resize or fallocate, mostly of a node that has contents.
    fn contents(&mut self) -> Call {
        if self.world.table.own(self.who).iter().all(|h| self.is_folder(*h)) && !self.dice.once(8) {
            return if self.dice.once(2) { self.find() } else { self.create() };
        }
        let h = self.other_kind();
        let at = self.offset(h);
        // A symlink mostly keeps its target.
        let link = !self.answered && self.links(false).contains(&h) && !self.dice.once(6);
        match if link { 0 } else { self.dice.below(30) } {
            0..=8 => Call::Read(h, at, if self.dice.once(3) { 8192 } else { self.amount() as u16 }),
            9..=18 => Call::Write(h, at, self.data()),
            19..=22 => Call::Resize(h, at),
            _ => self.range(h),
        }
    }

    /// A script has its limit, so late writes are short, and those of a sample shorter still.
    fn data(&mut self) -> Vec<u8> {
        let most = match self.script.len() {
            _ if self.answered => 100,
            0..=900_000 => 8192,
            _ => 16,
        };
        (0..self.amount().min(most)).map(|_| self.dice.next() as u8).collect()
    }
}
