//! The values of all nodes, filled a few nodes at a time, and the dump.
use crate::functions::{Analysis, TOP};
use crate::graph::{Graph, NIL, Proc};
use crate::tabulate::{BLOCK, Cell, Tables, are_all};
use std::fs::File;
use std::io::{self, Write};

const PIECE: usize = 262_144;
/// The columns before the value, and as many bytes as a line may have.
const VALUE: usize = 44;
const LINE: usize = 80;

/// A line of the dump as it was last written.
struct Line {
    text: [u8; LINE],
    length: usize,
    value: u32,
}

#[inline(never)]
pub fn write<A: Analysis, C: Cell>(
    g: &Graph,
    a: &mut A,
    t: &mut Tables<C>,
    out: &mut File,
) -> io::Result<()> {
    let mut piece = vec![0; PIECE + LINE];
    let mut used = 0;
    let mut values = Vec::new();
    let mut lines: Vec<Line> = Vec::new();
    let mut shown = Vec::new();
    for p in &g.procs {
        let facts = p.facts as usize;
        lines.clear();
        lines.extend((0..p.facts).map(|fact| first_line(g.fact_name(p, fact), fact)));
        let chunk = (16_384 / facts).clamp(16, 1024).min(p.nodes as usize);
        let mut begin = 0;
        while begin < p.nodes as usize {
            let count = chunk.min(p.nodes as usize - begin);
            values.clear();
            values.resize(facts * count, TOP);
            for fact in 0..facts {
                fill(a, t, p, fact, begin, &mut values);
            }
            for index in 0..count {
                let node = digits(p.start + (begin + index) as u32);
                for (fact, line) in lines.iter_mut().enumerate() {
                    let value = values[fact * count + index];
                    if value != line.value {
                        line.value = value;
                        shown.clear();
                        a.show(value, &mut shown);
                        shown.push(b'\n');
                        line.text[VALUE..VALUE + shown.len()].copy_from_slice(&shown);
                        line.length = VALUE + shown.len();
                    }
                    let place = &mut piece[used..used + LINE];
                    place.copy_from_slice(&line.text);
                    place[..6].copy_from_slice(&node);
                    used += line.length;
                    if used >= PIECE {
                        out.write_all(&piece[..used])?;
                        used = 0;
                    }
                }
            }
            begin += count;
        }
    }
    out.write_all(&piece[..used])
}

/// Meets the values at some nodes with those that the columns of a fact at the start bring.
#[inline(never)]
fn fill<A: Analysis, C: Cell>(
    a: &mut A,
    t: &Tables<C>,
    p: &Proc,
    start: usize,
    begin: usize,
    values: &mut [u32],
) {
    let row = t.row_of[p.fact0 as usize + start];
    if row == NIL {
        return;
    }
    let start = t.starts[p.fact0 as usize + start];
    let index = t.rows[row as usize].index as usize;
    let columns = &t.index[index..index + p.facts as usize];
    let count = values.len() / columns.len();
    for (column, values) in columns.iter().zip(values.chunks_exact_mut(count)) {
        if *column == NIL {
            continue;
        }
        let base = t.bases[*column as usize] as usize + begin;
        let cells = &t.cells[base..base + count];
        let (mut last, mut brought) = (TOP, TOP);
        let mut index = 0;
        while index < count {
            // the last block goes over some of the one before again, which changes nothing
            let at = if count < BLOCK {
                index
            } else {
                index.min(count - BLOCK)
            };
            let end = count.min(at + BLOCK);
            index = end;
            // most often the values are there already, or the function is the same at all of them
            if let (Some(values), Some(cells)) = (
                values[at..].first_chunk_mut(),
                cells[at..].first_chunk::<BLOCK>(),
            ) {
                if are_all(values, A::LEAST) {
                    continue;
                }
                if are_all(cells, C::of(last)) {
                    if brought == TOP || are_all(values, brought) {
                        continue;
                    }
                    if are_all(values, TOP) {
                        *values = [brought; BLOCK];
                        continue;
                    }
                }
            }
            for (value, cell) in values[at..end].iter_mut().zip(&cells[at..end]) {
                let f = cell.code();
                if f != last {
                    last = f;
                    brought = a.apply(f, start);
                }
                if *value != brought {
                    *value = a.meet(*value, brought);
                }
            }
        }
    }
}

fn first_line(name: &[u8], fact: u32) -> Line {
    let mut text = [b' '; LINE];
    text[7..11].copy_from_slice(&digits(fact)[2..]);
    text[12..12 + name.len()].copy_from_slice(name);
    Line {
        text,
        length: 0,
        value: NIL,
    }
}

/// A number at the right of six columns.
fn digits(mut n: u32) -> [u8; 6] {
    let mut text = [b' '; 6];
    for place in text.iter_mut().rev() {
        *place = b'0' + (n % 10) as u8;
        n /= 10;
        if n == 0 {
            break;
        }
    }
    text
}
