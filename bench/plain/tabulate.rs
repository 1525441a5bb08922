//! Jump functions, by columns, and start values.
//!
//! A column is a procedure, a fact at its start and a fact: a row of cells, one for each node of the procedure,
//! each the code of the jump function there. Columns that wait stand in a queue of their procedure, each with
//! the nodes that are to be gone on from; callees come before callers.
use crate::functions::{Analysis, ID, TOP};
use crate::graph::{Call, Graph, Kind, NIL, NONE, Node};

pub trait Cell: Copy + Default + PartialEq {
    const MAX: u32;
    fn of(code: u32) -> Self;
    fn code(self) -> u32;
}

macro_rules! cell {
    ($t:ty) => {
        impl Cell for $t {
            const MAX: u32 = <$t>::MAX as u32;
            #[inline(always)]
            fn of(code: u32) -> $t {
                code as $t
            }
            #[inline(always)]
            fn code(self) -> u32 {
                self as u32
            }
        }
    };
}
cell!(u8);
cell!(u16);
cell!(u32);

struct Column {
    row: u32,
    fact: u16,
    /// Its place among the exits of its row.
    exit: u16,
    is_queued: bool,
    /// Whether its function at the exit fell since callers were told.
    has_fallen: bool,
    /// The nodes to go on from.
    waiting: u32,
    next_queued: u32,
    /// The next column of the procedure for the same fact.
    next: u32,
}

/// A procedure and a fact at its start.
pub struct Row {
    proc: u32,
    fact: u16,
    is_queued: bool,
    /// Where the columns of its facts stand in the index.
    pub index: u32,
    /// The facts at the exit that callers see, each with its function.
    exits: Vec<(u16, u32)>,
}

#[derive(Clone)]
struct Work {
    first: u32,
    last: u32,
    fallen: Vec<u32>,
    rows: Vec<u32>,
}

pub struct Tables<C> {
    pub cells: Vec<C>,
    columns: Vec<Column>,
    pub rows: Vec<Row>,
    /// The row of each fact of each procedure, and its value at the start.
    pub row_of: Vec<u32>,
    pub starts: Vec<u32>,
    /// How many rows of each procedure do not have the least value yet.
    open: Vec<u32>,
    /// The column of each fact of each row.
    pub index: Vec<u32>,
    /// Where the cells of each column begin.
    pub bases: Vec<u32>,
    /// The first column for each fact of each procedure.
    columns_of: Vec<u32>,
    /// Lists of nodes to go on from: a node, and the next one.
    pool: Vec<(u32, u32)>,
    free: u32,
    work: Vec<Work>,
    /// Procedures callees first, the place of each in that order, and which of these have work.
    order: Vec<u32>,
    place: Vec<u32>,
    busy: Vec<u64>,
}

impl<C: Cell> Tables<C> {
    pub fn new(g: &Graph) -> Tables<C> {
        let facts = g.procs.iter().map(|p| p.facts as usize).sum();
        Tables {
            cells: Vec::new(),
            columns: Vec::new(),
            rows: Vec::new(),
            row_of: vec![NIL; facts],
            starts: vec![TOP; facts],
            open: vec![0; g.procs.len()],
            index: Vec::new(),
            bases: Vec::new(),
            columns_of: vec![NIL; facts],
            pool: Vec::new(),
            free: NIL,
            work: vec![
                Work {
                    first: NIL,
                    last: NIL,
                    fallen: Vec::new(),
                    rows: Vec::new()
                };
                g.procs.len()
            ],
            order: Vec::new(),
            place: vec![NIL; g.procs.len()],
            busy: vec![0; g.procs.len().div_ceil(64)],
        }
    }

    /// Callees first, by depth.
    fn find_order(&mut self, g: &Graph, root: usize) {
        let mut is_seen = vec![false; g.procs.len()];
        let mut stack = vec![(root, g.procs[root].calls.0, 0)];
        is_seen[root] = true;
        while let Some((proc, call, index)) = stack.pop() {
            if call == g.procs[proc].calls.1 {
                self.place[proc] = self.order.len() as u32;
                self.order.push(proc as u32);
                continue;
            }
            let callees = g.callees(&g.calls[call as usize]);
            let callee = callees[index] as usize;
            if index + 1 < callees.len() {
                stack.push((proc, call, index + 1));
            } else {
                stack.push((proc, call + 1, 0));
            }
            if !is_seen[callee] {
                is_seen[callee] = true;
                stack.push((callee, g.procs[callee].calls.0, 0));
            }
        }
    }

    fn set_busy(&mut self, proc: usize) {
        let place = self.place[proc];
        self.busy[place as usize >> 6] |= 1 << (place & 63);
    }

    fn clear_busy(&mut self, proc: usize) {
        let place = self.place[proc];
        self.busy[place as usize >> 6] &= !(1 << (place & 63));
    }

    /// The row of a procedure and a fact at its start, which is made.
    fn add_row(&mut self, g: &Graph, proc: usize, fact: u32) -> u32 {
        let p = &g.procs[proc];
        let row = self.rows.len() as u32;
        self.row_of[(p.fact0 + fact) as usize] = row;
        self.open[proc] += 1;
        let index = self.index.len();
        self.index.resize(index + p.facts as usize, NIL);
        self.rows.push(Row {
            proc: proc as u32,
            fact: fact as u16,
            is_queued: false,
            index: index as u32,
            exits: Vec::new(),
        });
        let column = self.add_column(g, row as usize, fact);
        let base = self.bases[column] as usize;
        self.cells[base] = C::of(ID);
        self.wait(proc, column, 0);
        row
    }

    #[cold]
    fn add_column(&mut self, g: &Graph, row: usize, fact: u32) -> usize {
        let column = self.columns.len();
        let r = &self.rows[row];
        let p = &g.procs[r.proc as usize];
        let base = self.cells.len();
        self.cells.resize(base + p.nodes as usize, C::default());
        self.index[(r.index + fact) as usize] = column as u32;
        self.bases.push(base as u32);
        let head = &mut self.columns_of[(p.fact0 + fact) as usize];
        self.columns.push(Column {
            row: row as u32,
            fact: fact as u16,
            exit: NONE,
            is_queued: false,
            has_fallen: false,
            waiting: NIL,
            next_queued: NIL,
            next: *head,
        });
        *head = column as u32;
        column
    }

    /// A column is to go on from a node.
    #[inline]
    fn wait(&mut self, proc: usize, column: usize, pos: u32) {
        let c = &mut self.columns[column];
        let entry = (pos, c.waiting);
        if self.free == NIL {
            c.waiting = self.pool.len() as u32;
            self.pool.push(entry);
        } else {
            c.waiting = self.free;
            let place = &mut self.pool[self.free as usize];
            self.free = place.1;
            *place = entry;
        }
        if !c.is_queued {
            c.is_queued = true;
            c.next_queued = NIL;
            let work = &mut self.work[proc];
            let last = work.last;
            work.last = column as u32;
            if last == NIL {
                work.first = column as u32;
                self.set_busy(proc);
            } else {
                self.columns[last as usize].next_queued = column as u32;
            }
        }
    }

    /// Lowers a cell; its function where it fell.
    #[inline(always)]
    fn lower<A: Analysis>(&mut self, a: &mut A, cell: usize, f: u32) -> Option<u32> {
        let cell = &mut self.cells[cell];
        let old = cell.code();
        if old == f || old == A::LEAST {
            return None;
        }
        let new = if old == TOP { f } else { a.meet(old, f) };
        if new == old {
            return None;
        }
        *cell = C::of(new);
        Some(new)
    }

    /// Lowers the function of a fact of a row at a node by `f` and then `g`.
    fn reach<A: Analysis>(
        &mut self,
        graph: &Graph,
        a: &mut A,
        row: usize,
        fact: u32,
        pos: u32,
        f: u32,
        g: u32,
    ) {
        let index = (self.rows[row].index + fact) as usize;
        let mut column = self.index[index] as usize;
        if column == NIL as usize {
            column = self.add_column(graph, row, fact);
        }
        let cell = (self.bases[column] + pos) as usize;
        if self.cells[cell].code() == A::LEAST {
            return;
        }
        let h = a.compose(f, g);
        if self.lower(a, cell, h).is_some() {
            self.wait(self.rows[row].proc as usize, column, pos);
        }
    }

    /// Goes on over the edges of a call from a fact of a row.
    #[inline(never)]
    fn enter_callees<A: Analysis>(
        &mut self,
        g: &Graph,
        a: &mut A,
        row: usize,
        fact: u16,
        call: &Call,
        f: u32,
    ) {
        for callee in g.callees(call) {
            if u32::from(fact) <= g.globals {
                self.enter(g, a, row, *callee as usize, fact.into(), call, f);
            }
            for (index, arg) in g.args(call).iter().enumerate() {
                if *arg == fact {
                    self.enter(
                        g,
                        a,
                        row,
                        *callee as usize,
                        g.globals + 2 + index as u32,
                        call,
                        f,
                    );
                }
            }
        }
    }

    fn enter<A: Analysis>(
        &mut self,
        g: &Graph,
        a: &mut A,
        row: usize,
        callee: usize,
        entry: u32,
        call: &Call,
        f: u32,
    ) {
        let inner = self.row_of[(g.procs[callee].fact0 + entry) as usize];
        if inner == NIL {
            self.add_row(g, callee, entry);
            return;
        }
        let exits = std::mem::take(&mut self.rows[inner as usize].exits);
        let (index, pos) = (self.rows[row].index, call.pos + 1);
        for (fact, function) in &exits {
            if let Some(target) = returned(g, call, *fact) {
                let column = self.index[index as usize + target as usize];
                if column == NIL
                    || self.cells[(self.bases[column as usize] + pos) as usize].code() != A::LEAST
                {
                    self.reach(g, a, row, target.into(), pos, f, *function);
                }
            }
        }
        self.rows[inner as usize].exits = exits;
    }

    /// Tells the callers of a procedure of the functions at its exit that fell.
    #[inline(never)]
    fn leave<A: Analysis>(&mut self, g: &Graph, a: &mut A, proc: usize) {
        let exit = g.procs[proc].nodes - 1;
        let mut fallen = std::mem::take(&mut self.work[proc].fallen);
        for column in fallen.drain(..) {
            let c = &mut self.columns[column as usize];
            c.has_fallen = false;
            let function = self.cells[(self.bases[column as usize] + exit) as usize].code();
            let row = &mut self.rows[c.row as usize];
            if c.exit == NONE {
                c.exit = row.exits.len() as u16;
                row.exits.push((c.fact, function));
            } else {
                row.exits[c.exit as usize].1 = function;
            }
            let (entry, fact) = (row.fact, c.fact);
            for site in g.sites(proc) {
                let call = &g.calls[*site as usize];
                let Some(target) = returned(g, call, fact) else {
                    continue;
                };
                let from = match u32::from(entry).checked_sub(g.globals + 2) {
                    Some(index) => g.args(call)[index as usize],
                    None => entry,
                };
                let mut outer =
                    self.columns_of[(g.procs[call.proc as usize].fact0 + u32::from(from)) as usize];
                while outer != NIL {
                    let c = &self.columns[outer as usize];
                    let f = self.cells[(self.bases[outer as usize] + call.pos) as usize].code();
                    outer = c.next;
                    if f != TOP {
                        self.reach(
                            g,
                            a,
                            c.row as usize,
                            target.into(),
                            call.pos + 1,
                            f,
                            function,
                        );
                    }
                }
            }
        }
        self.work[proc].fallen = fallen;
    }

    fn take_column(&mut self, proc: usize) -> Option<usize> {
        let work = &mut self.work[proc];
        if work.first == NIL {
            return None;
        }
        let column = work.first as usize;
        let c = &mut self.columns[column];
        c.is_queued = false;
        work.first = c.next_queued;
        if work.first == NIL {
            work.last = NIL;
        }
        Some(column)
    }

    /// Goes on from the nodes of a column that wait, by ascending position.
    #[inline(never)]
    fn run_column<A: Analysis>(&mut self, g: &Graph, a: &mut A, column: usize, waits: &mut [u64]) {
        let c = &mut self.columns[column];
        let (base, row, fact) = (self.bases[column] as usize, c.row as usize, c.fact);
        let mut entry = c.waiting;
        c.waiting = NIL;
        let p = &g.procs[self.rows[row].proc as usize];
        let nodes = &g.nodes[p.start as usize..(p.start + p.nodes) as usize];
        let events = g.events(p, fact.into());
        let waits = &mut waits[..p.words as usize];
        let (mut word, mut last) = (usize::MAX, 0);
        while entry != NIL {
            let (pos, next) = self.pool[entry as usize];
            let at = pos as usize >> 6;
            waits[at] |= 1 << (pos & 63);
            word = word.min(at);
            last = last.max(at);
            self.pool[entry as usize].1 = self.free;
            self.free = entry;
            entry = next;
        }
        while word <= last {
            if waits[word] == 0 {
                word += 1;
                continue;
            }
            let mut pos = word << 6 | waits[word].trailing_zeros() as usize;
            waits[word] &= waits[word] - 1;
            let mut f = self.cells[base + pos].code();
            loop {
                let event = next_event(events, pos);
                if event > pos {
                    let (passed, new) = fill(a, &mut self.cells[base + pos + 1..=base + event], f);
                    f = new;
                    // nodes that were passed wait no longer
                    clear(waits, pos + 1, pos + 1 + passed);
                    if passed < event - pos {
                        break;
                    }
                    pos = event;
                }
                let node: Node = nodes[pos];
                let mut jump = None;
                let mut goes_on = true;
                match node.kind {
                    Kind::Pass => {}
                    Kind::Enter => {
                        if fact == 0 {
                            self.reach(g, a, row, g.globals + 1, 1, f, A::AT_ENTRY);
                            for local in g.globals + 2 + p.params..p.facts {
                                self.reach(g, a, row, local, 1, f, A::AT_ENTRY);
                            }
                        }
                    }
                    Kind::Assign => {
                        let is_read = node.one == fact || node.two == fact;
                        if node.target != fact {
                            if is_read {
                                self.reach(
                                    g,
                                    a,
                                    row,
                                    node.target.into(),
                                    pos as u32 + 1,
                                    f,
                                    node.arg,
                                );
                            }
                        } else if is_read {
                            f = a.compose(f, node.arg);
                        } else {
                            goes_on = false;
                        }
                    }
                    Kind::Give => {
                        if node.one == fact {
                            self.reach(g, a, row, node.target.into(), node.arg, f, ID);
                        }
                        goes_on = false;
                        if node.target != fact {
                            jump = Some(node.arg);
                        }
                    }
                    Kind::Goto => {
                        goes_on = false;
                        jump = Some(node.arg);
                    }
                    Kind::Branch => jump = Some(node.arg),
                    Kind::Call => {
                        let call = &g.calls[node.arg as usize];
                        self.enter_callees(g, a, row, fact, call, f);
                        goes_on = fact == 0 || u32::from(fact) > g.globals && fact != node.target;
                    }
                    Kind::Exit => {
                        goes_on = false;
                        let c = &mut self.columns[column];
                        if u32::from(fact) <= g.globals + 1 && !c.has_fallen {
                            c.has_fallen = true;
                            self.work[self.rows[row].proc as usize]
                                .fallen
                                .push(column as u32);
                        }
                    }
                }
                if let Some(target) = jump
                    && self.lower(a, base + target as usize, f).is_some()
                {
                    let at = target as usize >> 6;
                    waits[at] |= 1 << (target & 63);
                    word = word.min(at);
                    last = last.max(at);
                }
                if !goes_on {
                    break;
                }
                pos += 1;
                match self.lower(a, base + pos, f) {
                    Some(new) => f = new,
                    None => break,
                }
                waits[pos >> 6] &= !(1 << (pos & 63));
            }
        }
    }
}

/// What a fact at a callee's exit becomes at the return site.
#[inline(always)]
fn returned(g: &Graph, call: &Call, fact: u16) -> Option<u16> {
    if u32::from(fact) > g.globals {
        (call.target != NONE).then_some(call.target)
    } else {
        (fact != call.target).then_some(fact)
    }
}

#[inline(always)]
fn next_event(events: &[u64], pos: usize) -> usize {
    let mut word = pos >> 6;
    let mut bits = events[word] & (!0 << (pos & 63));
    while bits == 0 {
        word += 1;
        bits = events[word];
    }
    word << 6 | bits.trailing_zeros() as usize
}

/// How many cells are looked at at once.
pub const BLOCK: usize = 16;

/// Whether all of some cells are the same as one.
#[inline(always)]
pub fn are_all<T: Copy + PartialEq>(cells: &[T; BLOCK], one: T) -> bool {
    cells.iter().fold(true, |are, cell| are & (*cell == one))
}

/// Lowers cells in a row as long as they fall: how many fell, and the function at the last one.
#[inline(always)]
fn fill<A: Analysis, C: Cell>(a: &mut A, cells: &mut [C], mut f: u32) -> (usize, u32) {
    let mut index = 0;
    while index < cells.len() {
        if let Some(some) = cells[index..].first_chunk_mut()
            && are_all(some, C::of(TOP))
        {
            *some = [C::of(f); BLOCK];
            index += BLOCK;
            continue;
        }
        let end = cells.len().min(index + BLOCK);
        for cell in &mut cells[index..end] {
            let old = cell.code();
            if old != TOP {
                if old == f || old == A::LEAST {
                    return (index, f);
                }
                let new = a.meet(old, f);
                if new == old {
                    return (index, f);
                }
                f = new;
            }
            *cell = C::of(f);
            index += 1;
        }
    }
    (index, f)
}

/// Clears the bits from a position to before another.
#[inline(always)]
fn clear(bits: &mut [u64], begin: usize, end: usize) {
    if begin >= end {
        return;
    }
    let (first, last) = (begin >> 6, (end - 1) >> 6);
    let low = !0 << (begin & 63);
    let high = !0 >> (63 - ((end - 1) & 63));
    if first == last {
        bits[first] &= !(low & high);
        return;
    }
    bits[first] &= !low;
    bits[first + 1..last].fill(0);
    bits[last] &= !high;
}

/// Finds the jump functions that are reached from a root; false where there are too many functions.
pub fn tabulate<A: Analysis, C: Cell>(
    g: &Graph,
    a: &mut A,
    t: &mut Tables<C>,
    root: usize,
) -> bool {
    t.find_order(g, root);
    for fact in 0..=g.globals {
        t.add_row(g, root, fact);
    }
    let words = g.procs.iter().map(|p| p.words).max().unwrap_or(0);
    let mut waits = vec![0; words as usize];
    while let Some(word) = t.busy.iter().position(|word| *word != 0) {
        let place = word << 6 | t.busy[word].trailing_zeros() as usize;
        let proc = t.order[place] as usize;
        if let Some(column) = t.take_column(proc) {
            t.run_column(g, a, column, &mut waits);
            if a.is_full() {
                return false;
            }
        } else {
            t.clear_busy(proc);
            t.leave(g, a, proc);
        }
    }
    true
}

/// Finds the value of each fact at each start.
#[inline(never)]
pub fn start_values<A: Analysis, C: Cell>(g: &Graph, a: &mut A, t: &mut Tables<C>, root: usize) {
    // the order the other way: callers first
    for proc in 0..g.procs.len() {
        if t.place[proc] != NIL {
            t.place[proc] = t.order.len() as u32 - 1 - t.place[proc];
        }
    }
    t.order.reverse();
    let mut entered: Vec<(u32, u32)> = Vec::new();
    for fact in 0..=g.globals {
        lower_start(g, a, t, root, fact, A::LEAST);
    }
    while let Some(word) = t.busy.iter().position(|word| *word != 0) {
        let place = word << 6 | t.busy[word].trailing_zeros() as usize;
        let proc = t.order[place] as usize;
        t.clear_busy(proc);
        let mut rows = std::mem::take(&mut t.work[proc].rows);
        for row in &rows {
            t.rows[*row as usize].is_queued = false;
        }
        for row in rows.drain(..) {
            let r = &t.rows[row as usize];
            let value = t.starts[g.procs[proc].fact0 as usize + r.fact as usize];
            let (calls, index) = (g.procs[proc].calls, r.index as usize);
            entered.clear();
            let columns = &t.index[index..=index + g.globals as usize];
            entered.extend(
                columns
                    .iter()
                    .zip(0..)
                    .filter(|(c, _)| **c != NIL)
                    .map(|(c, fact)| (fact, t.bases[*c as usize])),
            );
            for call in &g.calls[calls.0 as usize..calls.1 as usize] {
                if g.callees(call)
                    .iter()
                    .all(|callee| t.open[*callee as usize] == 0)
                {
                    continue;
                }
                for (fact, base) in &entered {
                    pass(g, a, t, call, *base, *fact, value);
                }
                for (arg, entry) in g.args(call).iter().zip(g.globals + 2..) {
                    let column = t.index[index + *arg as usize];
                    if column != NIL {
                        pass(g, a, t, call, t.bases[column as usize], entry, value);
                    }
                }
            }
        }
        if t.work[proc].rows.is_empty() {
            t.work[proc].rows = rows;
        }
    }
}

/// Hands on a start's value by the column whose cells begin there, to a fact at the starts of the callees.
#[inline(always)]
fn pass<A: Analysis, C: Cell>(
    g: &Graph,
    a: &mut A,
    t: &mut Tables<C>,
    call: &Call,
    base: u32,
    entry: u32,
    value: u32,
) {
    for callee in g.callees(call) {
        if t.starts[(g.procs[*callee as usize].fact0 + entry) as usize] != A::LEAST {
            let f = t.cells[(base + call.pos) as usize].code();
            if f != TOP {
                let value = a.apply(f, value);
                lower_start(g, a, t, *callee as usize, entry, value);
            }
        }
    }
}

fn lower_start<A: Analysis, C: Cell>(
    g: &Graph,
    a: &mut A,
    t: &mut Tables<C>,
    proc: usize,
    fact: u32,
    value: u32,
) {
    let place = (g.procs[proc].fact0 + fact) as usize;
    let new = a.meet(t.starts[place], value);
    if new != t.starts[place] {
        t.starts[place] = new;
        if new == A::LEAST {
            t.open[proc] -= 1;
        }
        let row = t.row_of[place];
        let r = &mut t.rows[row as usize];
        if !r.is_queued {
            r.is_queued = true;
            t.work[proc].rows.push(row);
            t.set_busy(proc);
        }
    }
}
