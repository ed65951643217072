//! The run on a list of cells: open, begin, turn, page. The words are those of docs/RULES.md.

/// The cells of the program's memory.
pub const CELLS: usize = 4096;

/// In ins and del: the stamp is not yet chosen.
pub const PENDING: u32 = u32::MAX;

/// The greatest number of keys.
pub const MAX_KEYS: usize = 64;

/// The greatest number of workers.
pub const MAX_WORKERS: usize = 8;

/// The greatest weight of an edge.
pub const MAX_WEIGHT: u32 = 1_000_000;

/// Answers of calls.
pub mod answer {
    pub const ADDED: u8 = 0x10;
    pub const ALREADY: u8 = 0x11;
    pub const REMOVED: u8 = 0x12;
    pub const ABSENT: u8 = 0x13;
    pub const PRESENT: u8 = 0x14;
    pub const EDGE_ADDED: u8 = 0x20;
    pub const EDGE_ALREADY: u8 = 0x21;
    pub const EDGE_REMOVED: u8 = 0x22;
    pub const EDGE_ABSENT: u8 = 0x23;
    pub const EDGE_PRESENT: u8 = 0x24;
    pub const SNAPSHOT: u8 = 0x30;
    pub const REACH: u8 = 0x31;
    pub const ROWS_SPENT: u8 = 0x40;
    pub const CLOCK_SPENT: u8 = 0x41;
}

/// Refusals.
pub mod refusal {
    pub const SIZE: u8 = 0xE1;
    pub const CELLS: u8 = 0xE2;
    pub const WORKER: u8 = 0xE3;
    pub const BUSY: u8 = 0xE4;
    pub const CALL: u8 = 0xE5;
    pub const KEY: u8 = 0xE6;
    pub const WEIGHT: u8 = 0xE7;
    pub const IDLE: u8 = 0xE8;
    pub const NO_PAGE: u8 = 0xEA;
}

/// What an opening names.
#[derive(Clone, Copy, Debug, PartialEq, Eq)]
pub struct Sizes {
    /// N, the number of keys.
    pub keys: u8,
    /// W, the number of workers.
    pub workers: u8,
    /// A, the vertex rows of each worker.
    pub vertex_rows: u16,
    /// B, the edge rows of each worker.
    pub edge_rows: u16,
    /// T, the greatest clock.
    pub greatest_clock: u32,
}

impl Sizes {
    fn within_limits(&self) -> bool {
        (1..=MAX_KEYS).contains(&usize::from(self.keys))
            && (1..=MAX_WORKERS).contains(&usize::from(self.workers))
            && (1..=256).contains(&self.vertex_rows)
            && (1..=2048).contains(&self.edge_rows)
            && (1..=1_000_000_000).contains(&self.greatest_clock)
    }
}

/// Where each cell lies.
#[derive(Clone, Copy, Debug)]
struct Layout {
    keys: usize,
    vertex_rows: usize,
    edge_rows: usize,
    first_vertex_row: usize,
    first_edge_row: usize,
    first_page: usize,
    needed: usize,
}

const CLOCK: usize = 0;

/// Fields of a row, by their offset. The first three are in vertex and edge rows alike.
const OLDER: usize = 0;
const INS: usize = 1;
const DEL: usize = 2;
const SOURCE: usize = 3;
const TARGET: usize = 4;
const WEIGHT: usize = 5;

impl Layout {
    fn of(sizes: &Sizes) -> Layout {
        let keys = usize::from(sizes.keys);
        let workers = usize::from(sizes.workers);
        let vertex_rows = usize::from(sizes.vertex_rows);
        let edge_rows = usize::from(sizes.edge_rows);
        let first_vertex_row = 1 + keys + keys * keys;
        let first_edge_row = first_vertex_row + 3 * workers * vertex_rows;
        let first_page = first_edge_row + 6 * workers * edge_rows;
        let needed = first_page + workers * (keys + keys * keys);
        Layout {
            keys,
            vertex_rows,
            edge_rows,
            first_vertex_row,
            first_edge_row,
            first_page,
            needed,
        }
    }

    fn vertex_head(&self, i: usize) -> usize {
        1 + i
    }

    fn edge_head(&self, i: usize, j: usize) -> usize {
        1 + self.keys + self.keys * i + j
    }

    fn vertex_row(&self, row: u32, field: usize) -> usize {
        self.first_vertex_row + 3 * (row as usize - 1) + field
    }

    fn edge_row(&self, row: u32, field: usize) -> usize {
        self.first_edge_row + 6 * (row as usize - 1) + field
    }

    fn row(&self, kind: Kind, row: u32, field: usize) -> usize {
        match kind {
            Kind::Vertex => self.vertex_row(row, field),
            Kind::Edge => self.edge_row(row, field),
        }
    }

    fn page(&self, worker: usize) -> usize {
        self.first_page + worker * self.page_len()
    }

    fn page_len(&self) -> usize {
        self.keys + self.keys * self.keys
    }

    fn page_key(&self, worker: usize, k: usize) -> usize {
        self.page(worker) + k
    }

    fn page_pair(&self, worker: usize, i: usize, j: usize) -> usize {
        self.page(worker) + self.keys + self.keys * i + j
    }
}

#[derive(Clone, Copy, Debug, PartialEq, Eq)]
enum Kind {
    Vertex,
    Edge,
}

#[derive(Clone, Copy, Debug, PartialEq, Eq)]
enum Call {
    AddVertex,
    RemoveVertex,
    ContainsVertex,
    AddEdge,
    RemoveEdge,
    ContainsEdge,
    Snapshot,
    Reach,
}

impl Call {
    fn of(number: u8) -> Option<Call> {
        Some(match number {
            1 => Call::AddVertex,
            2 => Call::RemoveVertex,
            3 => Call::ContainsVertex,
            4 => Call::AddEdge,
            5 => Call::RemoveEdge,
            6 => Call::ContainsEdge,
            7 => Call::Snapshot,
            8 => Call::Reach,
            _ => return None,
        })
    }

    /// The kind of row that an add links and a remove ends.
    fn kind(self) -> Kind {
        match self {
            Call::AddEdge | Call::RemoveEdge | Call::ContainsEdge => Kind::Edge,
            _ => Kind::Vertex,
        }
    }

    fn uses_pair(self) -> bool {
        self.kind() == Kind::Edge
    }

    fn has_page(self) -> bool {
        matches!(self, Call::Snapshot | Call::Reach)
    }
}

/// What a head is read for.
#[derive(Clone, Copy, Debug)]
enum HeadFor {
    /// Look at vertex i, in calls 1 to 3.
    Vertex,
    /// Look at i, in bind.
    Source,
    /// Look at j, in bind.
    Target,
    /// Look at the edge.
    Edge,
    /// After the lost link of add vertex.
    LostLink,
    /// The start of a walk.
    Walk,
}

/// What a field is settled for.
#[derive(Clone, Copy, Debug)]
enum FieldFor {
    VertexIns,
    VertexDel,
    SourceIns,
    SourceDel,
    TargetIns,
    TargetDel,
    /// del of s once more, at the end of bind.
    SourceStill,
    EdgeIns,
    EdgeDel,
    CheckSource,
    CheckTarget,
    /// ins of the row that the call linked.
    Linked,
    /// ins of the row found after the lost link of add vertex.
    LostLink,
    /// del of the row that a remove swapped; whether the swap said yes.
    Ended {
        own: bool,
    },
    CompareSource,
    CompareTarget,
    WalkIns,
    WalkDel,
}

/// The four turns of settle.
#[derive(Clone, Copy, Debug)]
enum Stage {
    Read,
    Clock,
    Swap(u32),
    Again,
}

/// A worker's place in its call: what its next turn does.
#[derive(Clone, Copy, Debug)]
enum Place {
    Idle,
    Raise,
    Head(usize, HeadFor),
    Settle(usize, FieldFor, Stage),
    /// Read ins of an older row, in a walk.
    OlderIns(usize),
    /// Swap del of the row in hand from 0 to pending.
    SwapDel,
    Link,
}

/// Whose head a walk is on.
#[derive(Clone, Copy, Debug)]
enum Walk {
    Key(usize),
    Pair(usize, usize),
}

/// What a turn leads to.
enum Next {
    Go(Place),
    Answer(u8),
}

use Next::{Answer, Go};

fn settle(field: usize, wanted: FieldFor) -> Next {
    Go(Place::Settle(field, wanted, Stage::Read))
}

/// The record of one worker.
#[derive(Clone, Debug)]
struct Worker {
    number: usize,
    place: Place,
    call: Call,
    i: usize,
    j: usize,
    weight: u32,
    linked_vertex_rows: usize,
    linked_edge_rows: usize,
    finished: bool,
    /// The row in hand: of the look, of the call's own change, or of the walk.
    row: u32,
    /// s and d of bind.
    source: u32,
    target: u32,
    /// What the look at the edge found.
    present: bool,
    /// The stamp of the call's own change, for compare.
    stamp: u32,
    /// The clock before the raise.
    t: u32,
    walk: Walk,
    /// Reach: the visible row of each key whose head was walked.
    walked: [Option<u32>; MAX_KEYS],
    /// Reach: the keys in the order they joined.
    joined: [u8; MAX_KEYS],
    joined_len: usize,
    /// Reach: how many joined keys are served.
    served: usize,
    /// Reach: the edge row that led to the walk of its target key.
    edge: u32,
}

impl Worker {
    fn idle(number: usize) -> Worker {
        Worker {
            number,
            place: Place::Idle,
            call: Call::ContainsVertex,
            i: 0,
            j: 0,
            weight: 0,
            linked_vertex_rows: 0,
            linked_edge_rows: 0,
            finished: false,
            row: 0,
            source: 0,
            target: 0,
            present: false,
            stamp: 0,
            t: 0,
            walk: Walk::Key(0),
            walked: [None; MAX_KEYS],
            joined: [0; MAX_KEYS],
            joined_len: 0,
            served: 0,
            edge: 0,
        }
    }

    fn is_idle(&self) -> bool {
        matches!(self.place, Place::Idle)
    }

    /// One turn.
    fn step(&mut self, at: &Layout, greatest_clock: u32, cells: &mut [u32]) -> Next {
        match self.place {
            Place::Idle => unreachable!("an idle worker is given no turn"),
            Place::Raise => self.raise(at, greatest_clock, cells),
            Place::Head(head, wanted) => self.head_read(at, wanted, cells[head], cells),
            Place::Settle(field, wanted, stage) => match stage {
                Stage::Read => match cells[field] {
                    PENDING => Go(Place::Settle(field, wanted, Stage::Clock)),
                    number => self.settled(at, wanted, number, cells),
                },
                Stage::Clock => Go(Place::Settle(field, wanted, Stage::Swap(cells[CLOCK]))),
                Stage::Swap(number) => {
                    swap(cells, field, PENDING, number);
                    Go(Place::Settle(field, wanted, Stage::Again))
                }
                Stage::Again => self.settled(at, wanted, cells[field], cells),
            },
            Place::OlderIns(field) => self.settled(at, FieldFor::WalkIns, cells[field], cells),
            Place::SwapDel => {
                let del = at.row(self.call.kind(), self.row, DEL);
                let own = swap(cells, del, 0, PENDING);
                settle(del, FieldFor::Ended { own })
            }
            Place::Link => self.link(at, cells),
        }
    }

    fn bind(&self, at: &Layout) -> Place {
        Place::Head(at.vertex_head(self.i), HeadFor::Source)
    }

    fn check_again(&self, at: &Layout) -> Next {
        settle(at.vertex_row(self.source, DEL), FieldFor::CheckSource)
    }

    fn compare(&mut self, at: &Layout, stamp: u32) -> Next {
        self.stamp = stamp;
        settle(at.vertex_row(self.source, DEL), FieldFor::CompareSource)
    }

    /// A head was read.
    fn head_read(&mut self, at: &Layout, wanted: HeadFor, head: u32, cells: &mut [u32]) -> Next {
        match wanted {
            HeadFor::Vertex => {
                self.row = head;
                match head {
                    0 => self.vertex_looked(false),
                    row => settle(at.vertex_row(row, INS), FieldFor::VertexIns),
                }
            }
            HeadFor::Source => {
                self.source = head;
                match head {
                    0 => Answer(answer::ABSENT),
                    row => settle(at.vertex_row(row, INS), FieldFor::SourceIns),
                }
            }
            HeadFor::Target => {
                self.target = head;
                match head {
                    0 => Answer(answer::ABSENT),
                    row => settle(at.vertex_row(row, INS), FieldFor::TargetIns),
                }
            }
            HeadFor::Edge => {
                self.row = head;
                match head {
                    0 => self.edge_looked(at, false),
                    row => settle(at.edge_row(row, INS), FieldFor::EdgeIns),
                }
            }
            HeadFor::LostLink => settle(at.vertex_row(head, INS), FieldFor::LostLink),
            HeadFor::Walk => {
                self.row = head;
                match head {
                    0 => self.walk_ended(at, 0, cells),
                    row => settle(at.row(self.walk_kind(), row, INS), FieldFor::WalkIns),
                }
            }
        }
    }

    /// A field was settled with this number.
    fn settled(&mut self, at: &Layout, wanted: FieldFor, number: u32, cells: &mut [u32]) -> Next {
        let ended = number != 0;
        match wanted {
            FieldFor::VertexIns => settle(at.vertex_row(self.row, DEL), FieldFor::VertexDel),
            FieldFor::VertexDel => self.vertex_looked(!ended),

            FieldFor::SourceIns => settle(at.vertex_row(self.source, DEL), FieldFor::SourceDel),
            FieldFor::SourceDel if ended => Answer(answer::ABSENT),
            FieldFor::SourceDel => Go(Place::Head(at.vertex_head(self.j), HeadFor::Target)),
            FieldFor::TargetIns => settle(at.vertex_row(self.target, DEL), FieldFor::TargetDel),
            FieldFor::TargetDel if ended => Answer(answer::ABSENT),
            FieldFor::TargetDel => settle(at.vertex_row(self.source, DEL), FieldFor::SourceStill),
            FieldFor::SourceStill if ended => Answer(answer::ABSENT),
            FieldFor::SourceStill => Go(Place::Head(at.edge_head(self.i, self.j), HeadFor::Edge)),

            FieldFor::EdgeIns => settle(at.edge_row(self.row, DEL), FieldFor::EdgeDel),
            FieldFor::EdgeDel => {
                let bound = cells[at.edge_row(self.row, SOURCE)] == self.source
                    && cells[at.edge_row(self.row, TARGET)] == self.target;
                self.edge_looked(at, !ended && bound)
            }

            FieldFor::CheckSource | FieldFor::CheckTarget if ended => Answer(answer::ABSENT),
            FieldFor::CheckSource => settle(at.vertex_row(self.target, DEL), FieldFor::CheckTarget),
            FieldFor::CheckTarget => match (self.call, self.present) {
                (Call::AddEdge, true) => Answer(answer::EDGE_ALREADY),
                (Call::AddEdge, false) => Go(Place::Link),
                (Call::ContainsEdge, true) => Answer(answer::EDGE_PRESENT),
                _ => Answer(answer::EDGE_ABSENT),
            },

            FieldFor::Linked => match self.call {
                Call::AddEdge => self.compare(at, number),
                _ => Answer(answer::ADDED),
            },
            FieldFor::LostLink => Answer(answer::ALREADY),
            FieldFor::Ended { own } => match (self.call, own) {
                (Call::RemoveEdge, true) => self.compare(at, number),
                (Call::RemoveEdge, false) => self.check_again(at),
                (_, true) => Answer(answer::REMOVED),
                (_, false) => Answer(answer::ABSENT),
            },

            FieldFor::CompareSource | FieldFor::CompareTarget if ended && number < self.stamp => {
                Answer(answer::ABSENT)
            }
            FieldFor::CompareSource => {
                settle(at.vertex_row(self.target, DEL), FieldFor::CompareTarget)
            }
            FieldFor::CompareTarget => match self.call {
                Call::AddEdge => Answer(answer::EDGE_ADDED),
                _ => Answer(answer::EDGE_REMOVED),
            },

            FieldFor::WalkIns if number > self.t => {
                let kind = self.walk_kind();
                self.row = cells[at.row(kind, self.row, OLDER)];
                match self.row {
                    0 => self.walk_ended(at, 0, cells),
                    older => Go(Place::OlderIns(at.row(kind, older, INS))),
                }
            }
            FieldFor::WalkIns => settle(at.row(self.walk_kind(), self.row, DEL), FieldFor::WalkDel),
            FieldFor::WalkDel if ended && number <= self.t => self.walk_ended(at, 0, cells),
            FieldFor::WalkDel => self.walk_ended(at, self.row, cells),
        }
    }

    /// The look of calls 1 to 3 is over.
    fn vertex_looked(&mut self, alive: bool) -> Next {
        match (self.call, alive) {
            (Call::AddVertex, true) => Answer(answer::ALREADY),
            (Call::AddVertex, false) => Go(Place::Link),
            (Call::RemoveVertex, true) => Go(Place::SwapDel),
            (_, true) => Answer(answer::PRESENT),
            (_, false) => Answer(answer::ABSENT),
        }
    }

    /// The look at the edge is over.
    fn edge_looked(&mut self, at: &Layout, present: bool) -> Next {
        self.present = present;
        match (self.call, present) {
            (Call::RemoveEdge, true) => Go(Place::SwapDel),
            _ => self.check_again(at),
        }
    }

    /// The link turn of call 1 or 4. `row` is the head that the look read.
    fn link(&mut self, at: &Layout, cells: &mut [u32]) -> Next {
        let kind = self.call.kind();
        let (linked, owned, head) = match kind {
            Kind::Vertex => (
                &mut self.linked_vertex_rows,
                at.vertex_rows,
                at.vertex_head(self.i),
            ),
            Kind::Edge => (
                &mut self.linked_edge_rows,
                at.edge_rows,
                at.edge_head(self.i, self.j),
            ),
        };
        if *linked == owned {
            return Answer(answer::ROWS_SPENT);
        }
        let own = (self.number * owned + *linked + 1) as u32;
        cells[at.row(kind, own, OLDER)] = self.row;
        cells[at.row(kind, own, INS)] = PENDING;
        cells[at.row(kind, own, DEL)] = 0;
        if kind == Kind::Edge {
            cells[at.edge_row(own, SOURCE)] = self.source;
            cells[at.edge_row(own, TARGET)] = self.target;
            cells[at.edge_row(own, WEIGHT)] = self.weight;
        }
        if swap(cells, head, self.row, own) {
            *linked += 1;
            self.row = own;
            settle(at.row(kind, own, INS), FieldFor::Linked)
        } else {
            match kind {
                Kind::Vertex => Go(Place::Head(head, HeadFor::LostLink)),
                Kind::Edge => Go(self.bind(at)),
            }
        }
    }

    /// The first turn of calls 7 and 8.
    fn raise(&mut self, at: &Layout, greatest_clock: u32, cells: &mut [u32]) -> Next {
        if cells[CLOCK] >= greatest_clock {
            return Answer(answer::CLOCK_SPENT);
        }
        self.t = cells[CLOCK];
        cells[CLOCK] += 1;
        let page = at.page(self.number);
        cells[page..page + at.page_len()].fill(0);
        match self.call {
            Call::Snapshot => self.walk(at, Walk::Key(0)),
            _ => {
                self.walked[..at.keys].fill(None);
                self.joined_len = 0;
                self.served = 0;
                self.walk(at, Walk::Key(self.i))
            }
        }
    }

    fn walk(&mut self, at: &Layout, walk: Walk) -> Next {
        self.walk = walk;
        let head = match walk {
            Walk::Key(k) => at.vertex_head(k),
            Walk::Pair(i, j) => at.edge_head(i, j),
        };
        Go(Place::Head(head, HeadFor::Walk))
    }

    fn walk_kind(&self) -> Kind {
        match self.walk {
            Walk::Key(_) => Kind::Vertex,
            Walk::Pair(..) => Kind::Edge,
        }
    }

    /// A walk came to its end with this visible row, or 0.
    fn walk_ended(&mut self, at: &Layout, visible: u32, cells: &mut [u32]) -> Next {
        match (self.call, self.walk) {
            (Call::Snapshot, Walk::Key(k)) => {
                cells[at.page_key(self.number, k)] = visible;
                if k + 1 < at.keys {
                    self.walk(at, Walk::Key(k + 1))
                } else {
                    self.next_snapshot_pair(at, 0, 0, cells)
                }
            }
            (Call::Snapshot, Walk::Pair(i, j)) => {
                if visible != 0
                    && cells[at.edge_row(visible, SOURCE)] == cells[at.page_key(self.number, i)]
                    && cells[at.edge_row(visible, TARGET)] == cells[at.page_key(self.number, j)]
                {
                    cells[at.page_pair(self.number, i, j)] = cells[at.edge_row(visible, WEIGHT)];
                }
                self.next_snapshot_pair(at, i, j + 1, cells)
            }
            (_, Walk::Key(i)) if self.joined_len == 0 => {
                self.walked[i] = Some(visible);
                if visible == 0 {
                    return Answer(answer::ABSENT);
                }
                self.join(at, i, visible, cells);
                self.next_reach_pair(at, 0)
            }
            (_, Walk::Key(j)) => {
                self.walked[j] = Some(visible);
                self.enter(at, j, visible, cells)
            }
            (_, Walk::Pair(k, j)) => {
                if visible == 0
                    || cells[at.edge_row(visible, SOURCE)] != cells[at.page_key(self.number, k)]
                {
                    return self.next_reach_pair(at, j + 1);
                }
                self.edge = visible;
                match self.walked[j] {
                    Some(row) => self.enter(at, j, row, cells),
                    None => self.walk(at, Walk::Key(j)),
                }
            }
        }
    }

    /// Snapshot: walks the first pair of visible keys from (i, j) on, or answers.
    fn next_snapshot_pair(&mut self, at: &Layout, i: usize, j: usize, cells: &[u32]) -> Next {
        let page = at.page(self.number);
        let visible = &cells[page..page + at.keys];
        let mut from = j;
        for i in i..at.keys {
            if visible[i] != 0 {
                if let Some(j) = (from..at.keys).find(|&j| j != i && visible[j] != 0) {
                    return self.walk(at, Walk::Pair(i, j));
                }
            }
            from = 0;
        }
        self.finished = true;
        Answer(answer::SNAPSHOT)
    }

    /// Reach: walks the next pair of the key in service from j on, or of the next joined key, or answers.
    fn next_reach_pair(&mut self, at: &Layout, j: usize) -> Next {
        let mut from = j;
        while self.served < self.joined_len {
            let k = usize::from(self.joined[self.served]);
            if let Some(j) = (from..at.keys).find(|&j| j != k) {
                return self.walk(at, Walk::Pair(k, j));
            }
            self.served += 1;
            from = 0;
        }
        self.finished = true;
        Answer(answer::REACH)
    }

    /// Reach: the edge row in hand leads from the key in service to j, whose visible row is `row`, or 0.
    fn enter(&mut self, at: &Layout, j: usize, row: u32, cells: &mut [u32]) -> Next {
        if cells[at.edge_row(self.edge, TARGET)] == row {
            let k = usize::from(self.joined[self.served]);
            cells[at.page_pair(self.number, k, j)] = cells[at.edge_row(self.edge, WEIGHT)];
            if cells[at.page_key(self.number, j)] == 0 {
                self.join(at, j, row, cells);
            }
        }
        self.next_reach_pair(at, j + 1)
    }

    fn join(&mut self, at: &Layout, k: usize, row: u32, cells: &mut [u32]) {
        cells[at.page_key(self.number, k)] = row;
        self.joined[self.joined_len] = k as u8;
        self.joined_len += 1;
    }
}

/// Sets a cell that holds `expected` to `new`; says whether it did.
fn swap(cells: &mut [u32], cell: usize, expected: u32, new: u32) -> bool {
    let holds = cells[cell] == expected;
    if holds {
        cells[cell] = new;
    }
    holds
}

/// A run: the cells and the worker table.
#[derive(Clone, Debug)]
pub struct Stepper {
    sizes: Sizes,
    layout: Layout,
    cells: Vec<u32>,
    workers: Vec<Worker>,
}

impl Stepper {
    /// Opens a run on the program's memory, or refuses with E1 or E2.
    pub fn open(sizes: Sizes) -> Result<Stepper, u8> {
        Stepper::open_on(sizes, vec![0; CELLS])
    }

    /// Opens a run on these cells, or refuses with E1 or E2. Cells past the needed ones stay.
    pub fn open_on(sizes: Sizes, mut cells: Vec<u32>) -> Result<Stepper, u8> {
        if !sizes.within_limits() {
            return Err(refusal::SIZE);
        }
        let layout = Layout::of(&sizes);
        if cells.len() < layout.needed {
            return Err(refusal::CELLS);
        }
        cells[..layout.needed].fill(0);
        cells[CLOCK] = 1;
        let workers = (0..usize::from(sizes.workers)).map(Worker::idle).collect();
        Ok(Stepper {
            sizes,
            layout,
            cells,
            workers,
        })
    }

    /// The sizes of the opening.
    pub fn sizes(&self) -> Sizes {
        self.sizes
    }

    /// The cells as they stand.
    pub fn cells(&self) -> &[u32] {
        &self.cells
    }

    /// Begins a call of a worker, or refuses with E3 to E7.
    pub fn begin(&mut self, worker: u8, call: u8, i: u8, j: u8, weight: u32) -> Result<(), u8> {
        let keys = self.layout.keys;
        let w = self
            .workers
            .get_mut(usize::from(worker))
            .ok_or(refusal::WORKER)?;
        if !w.is_idle() {
            return Err(refusal::BUSY);
        }
        let call = Call::of(call).ok_or(refusal::CALL)?;
        let (i, j) = (usize::from(i), usize::from(j));
        let i_bad = call != Call::Snapshot && i >= keys;
        let j_bad = call.uses_pair() && (j >= keys || i == j);
        if i_bad || j_bad {
            return Err(refusal::KEY);
        }
        if call == Call::AddEdge && !(1..=MAX_WEIGHT).contains(&weight) {
            return Err(refusal::WEIGHT);
        }
        w.call = call;
        w.i = i;
        w.j = j;
        w.weight = weight;
        if call.has_page() {
            w.finished = false;
        }
        w.place = match call {
            Call::AddVertex | Call::RemoveVertex | Call::ContainsVertex => {
                Place::Head(self.layout.vertex_head(i), HeadFor::Vertex)
            }
            Call::AddEdge | Call::RemoveEdge | Call::ContainsEdge => w.bind(&self.layout),
            Call::Snapshot | Call::Reach => Place::Raise,
        };
        Ok(())
    }

    /// Gives a worker one turn: the answer if the turn answers. Refuses with E3 or E8.
    pub fn turn(&mut self, worker: u8) -> Result<Option<u8>, u8> {
        let w = self
            .workers
            .get_mut(usize::from(worker))
            .ok_or(refusal::WORKER)?;
        if w.is_idle() {
            return Err(refusal::IDLE);
        }
        match w.step(&self.layout, self.sizes.greatest_clock, &mut self.cells) {
            Go(place) => {
                w.place = place;
                Ok(None)
            }
            Answer(answer) => {
                w.place = Place::Idle;
                Ok(Some(answer))
            }
        }
    }

    /// Gives a worker up to n turns, to the one that answers. The code is the answer, 00 while the call is
    /// still running, or a refusal; then the turns used.
    pub fn turns(&mut self, worker: u8, n: u8) -> (u8, u8) {
        for used in 1..=n {
            match self.turn(worker) {
                Ok(None) => {}
                Ok(Some(answer)) => return (answer, used),
                Err(refused) => return (refused, 0),
            }
        }
        (0, n)
    }

    /// Lends a worker's finished page, or refuses with E3 or EA. The page is given back when the loan ends.
    pub fn page(&self, worker: u8) -> Result<Page<'_>, u8> {
        let w = self
            .workers
            .get(usize::from(worker))
            .ok_or(refusal::WORKER)?;
        if !w.finished {
            return Err(refusal::NO_PAGE);
        }
        let first = self.layout.page(w.number);
        Ok(Page {
            keys: self.layout.keys,
            cells: &self.cells[first..first + self.layout.page_len()],
        })
    }
}

/// A finished page.
#[derive(Clone, Copy, Debug)]
pub struct Page<'a> {
    keys: usize,
    cells: &'a [u32],
}

impl Page<'_> {
    /// N, the number of keys.
    pub fn keys(&self) -> usize {
        self.keys
    }

    /// Whether the page shows key k.
    pub fn shows(&self, k: usize) -> bool {
        self.cells[..self.keys][k] != 0
    }

    /// The weight of the edge (i, j), 0 for none.
    pub fn weight(&self, i: usize, j: usize) -> u32 {
        self.cells[self.keys..][self.keys * i + j]
    }

    /// The weights of all pairs, i rising, then j.
    pub fn weights(&self) -> &[u32] {
        &self.cells[self.keys..]
    }
}
