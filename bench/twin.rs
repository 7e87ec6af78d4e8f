//! An unverified twin of the volume, to measure beside it: the same device in memory, trees, tables and locks in plain Rust. It is no
//! part of the library, nothing is proved of it, and it knows no checkpoint, no cleaning and no reader.
//!
//!     twin calls DEPTH BLOCKS CALLS SEGMENTS            one thread: appends, overwrites, reads
//!     twin threads WRITERS DEPTH BLOCKS CALLS SEGMENTS  writers side by side, each on a file of its own
//!     twin copies WRITERS CALLS PLACES                  bare copies of a block, each to the next of so many places
//!
//! PERMITS in the environment says how a call takes its permit: `channel` (two mutexes and a channel of 64, the first design of the
//! volume), `counter` (a mutex and a condition) or `none`. Each command prints nanoseconds a call over all threads.
use std::hint::black_box;
use std::sync::mpsc::{sync_channel, Receiver, SyncSender};
use std::sync::{Arc, Condvar, Mutex};
use std::time::{Duration, Instant};

const BLOCK: usize = 4096;
const SEGMENT: usize = 512;
/// The entries of a direct or indirect node, and the addresses in an inode.
const ENTRIES: usize = 1018;
const IN_INODE: usize = 923;
const PERMITS: usize = 64;

/// A node number and a slot, or a node number twice.
type Owner = (u32, u32);

struct Block {
    bytes: Arc<Vec<u8>>,
}

impl Block {
    fn write(&mut self, bytes: &[u8]) {
        match Arc::get_mut(&mut self.bytes) {
            Some(held) => held.copy_from_slice(bytes),
            None => self.bytes = Arc::new(bytes.to_vec()),
        }
    }
}

struct Ticket {
    address: usize,
    owner: Owner,
    block: Block,
}

#[derive(Clone, Copy, PartialEq)]
enum State {
    Free,
    Open,
    Sealed,
}

struct Segment {
    number: usize,
    home: Vec<Option<Block>>,
    valid: [u64; SEGMENT / 64],
    summaries: Vec<Owner>,
    count: u32,
    mtime: u64,
    next: usize,
    state: State,
}

impl Segment {
    fn new(number: usize) -> Segment {
        let block = || Block {
            bytes: Arc::new(vec![0; BLOCK]),
        };
        Segment {
            number,
            home: (0..SEGMENT).map(|_| Some(block())).collect(),
            valid: [0; SEGMENT / 64],
            summaries: vec![(0, 0); SEGMENT],
            count: 0,
            mtime: 0,
            next: 0,
            state: State::Free,
        }
    }

    fn append(&mut self, owner: Owner, now: u64, bytes: &[u8]) -> Ticket {
        let offset = self.next;
        let mut block = self.home[offset].take().unwrap();
        block.write(bytes);
        self.valid[offset / 64] |= 1 << (offset % 64);
        self.summaries[offset] = owner;
        self.count += 1;
        self.mtime = self.mtime.max(now);
        self.next += 1;
        if self.next == SEGMENT {
            self.state = State::Sealed;
        }
        Ticket {
            address: 1 + self.number * SEGMENT + offset,
            owner,
            block,
        }
    }

    /// Whether the segment came free.
    fn release(&mut self, ticket: Ticket) -> bool {
        let offset = (ticket.address - 1) % SEGMENT;
        assert!(self.summaries[offset] == ticket.owner);
        self.home[offset] = Some(ticket.block);
        self.valid[offset / 64] &= !(1 << (offset % 64));
        self.summaries[offset] = (0, 0);
        self.count -= 1;
        let is_free = self.count == 0 && self.state == State::Sealed;
        if is_free {
            self.state = State::Free;
        }
        is_free
    }
}

/// A node of a depth: slots of tickets at depth 0, nodes below otherwise.
struct Node {
    number: u32,
    slots: Vec<Option<Ticket>>,
    below: Vec<Option<Box<Node>>>,
    is_dirty: bool,
}

fn nothing<T>(count: usize) -> Vec<Option<T>> {
    (0..count).map(|_| None).collect()
}

impl Node {
    fn new(number: u32, depth: u32) -> Node {
        let (slots, below) = if depth == 0 { (ENTRIES, 0) } else { (0, ENTRIES) };
        Node {
            number,
            slots: nothing(slots),
            below: nothing(below),
            is_dirty: true,
        }
    }
}

struct File {
    inode: Node,
    /// Two direct nodes, two of depth 1, one of depth 2.
    roots: [Option<Box<Node>>; 5],
    length: usize,
    last_number: u32,
}

impl File {
    fn new(number: u32) -> File {
        let inode = Node {
            number,
            slots: nothing(IN_INODE),
            below: Vec::new(),
            is_dirty: true,
        };
        File {
            inode,
            roots: [None, None, None, None, None],
            length: 0,
            last_number: number * 10_000,
        }
    }

    /// The node and the slot in it that stand at an index; nodes are made where `grow` says so.
    fn find(&mut self, index: usize, grow: bool) -> Option<(&mut Node, usize)> {
        if index < IN_INODE {
            return Some((&mut self.inode, index));
        }
        let (root, depth, mut rest) = root_of(index - IN_INODE);
        let last_number = &mut self.last_number;
        let mut place = &mut self.roots[root];
        for depth in (0..=depth).rev() {
            if place.is_none() {
                if !grow {
                    return None;
                }
                *last_number += 1;
                *place = Some(Box::new(Node::new(*last_number, depth)));
            }
            let node = place.as_mut().unwrap();
            if depth == 0 {
                return Some((node, rest));
            }
            let span = ENTRIES.pow(depth);
            place = &mut node.below[rest / span];
            rest %= span;
        }
        None
    }
}

/// The root below which an index behind those of the inode lies, its depth, and the index from the root's first on.
fn root_of(index: usize) -> (usize, u32, usize) {
    let mut rest = index;
    for (root, depth) in [0, 0, 1, 1, 2].into_iter().enumerate() {
        let span = ENTRIES.pow(depth + 1);
        if rest < span {
            return (root, depth, rest);
        }
        rest -= span;
    }
    panic!("past the largest length");
}

struct Card;

enum Permits {
    None,
    Counter(Mutex<usize>, Condvar),
    Channel(Mutex<SyncSender<Card>>, Mutex<Receiver<Card>>),
}

impl Permits {
    fn from_environment() -> Permits {
        match std::env::var("PERMITS").as_deref() {
            Ok("none") => Permits::None,
            Ok("counter") => Permits::Counter(Mutex::new(PERMITS), Condvar::new()),
            _ => {
                let (sender, receiver) = sync_channel(PERMITS);
                (0..PERMITS).for_each(|_| sender.send(Card).unwrap());
                Permits::Channel(Mutex::new(sender), Mutex::new(receiver))
            }
        }
    }

    fn enter(&self) {
        match self {
            Permits::None => {}
            Permits::Counter(count, some) => {
                *some.wait_while(count.lock().unwrap(), |left| *left == 0).unwrap() -= 1;
            }
            Permits::Channel(_, receiver) => drop(receiver.lock().unwrap().recv().unwrap()),
        }
    }

    fn leave(&self) {
        match self {
            Permits::None => {}
            Permits::Counter(count, some) => {
                *count.lock().unwrap() += 1;
                some.notify_one();
            }
            Permits::Channel(sender, _) => sender.lock().unwrap().send(Card).unwrap(),
        }
    }
}

struct Volume {
    segments: Vec<Mutex<Segment>>,
    logs: Vec<Mutex<Option<usize>>>,
    free: Mutex<Vec<usize>>,
    files: Vec<Mutex<File>>,
    permits: Permits,
}

impl Volume {
    fn new(segments: usize, files: usize) -> Volume {
        Volume {
            segments: (0..segments).map(|number| Mutex::new(Segment::new(number))).collect(),
            logs: (0..6).map(|_| Mutex::new(None)).collect(),
            free: Mutex::new((0..segments).rev().collect()),
            files: (1..=files as u32).map(|number| Mutex::new(File::new(number))).collect(),
            permits: Permits::from_environment(),
        }
    }

    fn append(&self, log: usize, owner: Owner, bytes: &[u8]) -> Option<Ticket> {
        let mut open = self.logs[log].lock().unwrap();
        if open.is_none() {
            let number = self.free.lock().unwrap().pop()?;
            let mut segment = self.segments[number].lock().unwrap();
            segment.state = State::Open;
            segment.next = 0;
            *open = Some(number);
        }
        let mut segment = self.segments[open.unwrap()].lock().unwrap();
        let ticket = segment.append(owner, 0, bytes);
        if segment.state == State::Sealed {
            *open = None;
        }
        Some(ticket)
    }

    fn release(&self, ticket: Ticket) {
        let number = (ticket.address - 1) / SEGMENT;
        if self.segments[number].lock().unwrap().release(ticket) {
            self.free.lock().unwrap().insert(0, number);
        }
    }

    fn write(&self, file: usize, index: usize, bytes: &[u8]) {
        self.permits.enter();
        let mut state = self.files[file].lock().unwrap();
        let (node, slot) = state.find(index, true).unwrap();
        let ticket = self.append(3 + file % 3, (node.number, slot as u32), bytes).expect("room");
        node.is_dirty = true;
        if let Some(before) = node.slots[slot].replace(ticket) {
            self.release(before);
        }
        if state.length <= index {
            state.length = index + 1;
            state.inode.is_dirty = true;
        }
        drop(state);
        self.permits.leave();
    }

    fn read(&self, file: usize, index: usize, out: &mut [u8]) {
        let mut state = self.files[file].lock().unwrap();
        let (node, slot) = state.find(index, false).unwrap();
        out.copy_from_slice(&node.slots[slot].as_ref().unwrap().block.bytes);
        black_box(&out);
    }
}

/// The first index whose path has so many nodes below the inode.
fn first_index(depth: usize) -> usize {
    let behind_direct = IN_INODE + 2 * ENTRIES;
    [0, IN_INODE, behind_direct, behind_direct + 2 * ENTRIES * ENTRIES][depth]
}

/// Indexes in no order, from the first one on.
fn scattered(first: usize, blocks: usize) -> impl Iterator<Item = usize> {
    let step = |seed: &u32| Some(seed.wrapping_mul(1_664_525).wrapping_add(1_013_904_223));
    std::iter::successors(Some(1), step).map(move |seed| first + (seed >> 8) as usize % blocks)
}

fn each(time: Duration, calls: usize) -> u128 {
    time.as_nanos() / calls as u128
}

fn timed(work: impl FnOnce()) -> Duration {
    let began = Instant::now();
    work();
    began.elapsed()
}

fn measure_calls(depth: usize, blocks: usize, calls: usize, segments: usize) {
    let volume = Volume::new(segments, 1);
    let first = first_index(depth);
    let bytes = vec![1; BLOCK];
    let mut out = vec![0; BLOCK];
    let append = timed(|| (first..first + blocks).for_each(|index| volume.write(0, index, &bytes)));
    let overwrite = timed(|| {
        scattered(first, blocks)
            .take(calls)
            .for_each(|index| volume.write(0, index, &bytes))
    });
    let read = timed(|| {
        scattered(first, blocks)
            .take(calls)
            .for_each(|index| volume.read(0, index, &mut out))
    });
    println!(
        "append {} overwrite {} read {}",
        each(append, blocks),
        each(overwrite, calls),
        each(read, calls)
    );
}

fn measure_threads(writers: usize, depth: usize, blocks: usize, calls: usize, segments: usize) {
    let volume = Volume::new(segments, writers);
    let first = first_index(depth);
    let bytes = vec![1; BLOCK];
    for file in 0..writers {
        (first..first + blocks).for_each(|index| volume.write(file, index, &bytes));
    }
    let (volume, bytes) = (&volume, &bytes);
    let time = timed(|| {
        std::thread::scope(|scope| {
            for file in 0..writers {
                scope.spawn(move || {
                    scattered(first, blocks)
                        .take(calls)
                        .for_each(|index| volume.write(file, index, bytes))
                });
            }
        })
    });
    println!("overwrite {}", each(time, calls * writers));
}

fn measure_copies(writers: usize, calls: usize, places: usize) {
    let mut all: Vec<Vec<Vec<u8>>> = (0..writers).map(|_| vec![vec![1; BLOCK]; places]).collect();
    let from = &vec![3; BLOCK];
    let time = timed(|| {
        std::thread::scope(|scope| {
            for to in all.iter_mut() {
                scope.spawn(move || (0..calls).for_each(|call| to[call % places].copy_from_slice(from)));
            }
        })
    });
    black_box(&all);
    println!("copy {}", each(time, calls * writers));
}

fn main() {
    let words: Vec<String> = std::env::args().skip(1).collect();
    let numbers: Vec<usize> = words.iter().skip(1).filter_map(|word| word.parse().ok()).collect();
    match (words.first().map(String::as_str), numbers.as_slice()) {
        (Some("calls"), &[depth, blocks, calls, segments]) => measure_calls(depth, blocks, calls, segments),
        (Some("threads"), &[writers, depth, blocks, calls, segments]) => measure_threads(writers, depth, blocks, calls, segments),
        (Some("copies"), &[writers, calls, places]) => measure_copies(writers, calls, places),
        _ => {
            eprintln!("twin calls DEPTH BLOCKS CALLS SEGMENTS | threads WRITERS DEPTH BLOCKS CALLS SEGMENTS | copies WRITERS CALLS PLACES");
            std::process::exit(2);
        }
    }
}
