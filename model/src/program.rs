//! The program: reads, opens, refines once, prints.

use crate::answer::{Counts, Refined, Refusal};
use crate::leaves::leaves;
use crate::open::open;
use crate::refine::refine;
use crate::tables::{Lent, Tables};
use crate::text::read_all;
use std::io::Write;

pub const PROGRAM_ROOM: Counts = Counts {
    vertices: 512,
    rows: 768,
};

/// What the program came to, and what it prints.
pub struct Outcome {
    pub answer: Result<Refined, Refusal>,
    pub output: Vec<u8>,
}

/// The whole program, from input bytes to output bytes.
pub fn program(input: &[u8]) -> Outcome {
    let mut coordinates = vec![0.0; 3 * PROGRAM_ROOM.vertices];
    let mut vertices = vec![0; 2 * PROGRAM_ROOM.vertices];
    let mut elements = vec![0; 8 * PROGRAM_ROOM.rows];
    let mut lent = Lent {
        coordinates: &mut coordinates,
        vertices: &mut vertices,
        elements: &mut elements,
    };
    let mut initial = 0;
    let answer = read_all(input).and_then(|input| {
        let counts = open(&input.points, &input.elements, &mut lent)?;
        initial = counts.vertices;
        refine(&mut lent, counts, &input.marks)
    });
    let output = match answer {
        Ok(refined) => printed(lent.view(), refined, initial),
        Err(refusal) => format!("C\t{}\t{}\t0\t0\n", refusal.number, refusal.place).into_bytes(),
    };
    Outcome { answer, output }
}

fn printed(tables: Tables, refined: Refined, initial: usize) -> Vec<u8> {
    let Counts { vertices, rows } = refined.counts;
    let mut out = Vec::new();
    line(
        &mut out,
        format_args!("C\t0\t{vertices}\t{rows}\t{}", refined.splits),
    );
    for v in initial..vertices {
        let (a, b) = tables.record(v);
        let [x, y, z] = tables.point(v).map(f64::to_bits);
        line(
            &mut out,
            format_args!("P\t{v}\t{a}\t{b}\t{x:016x}\t{y:016x}\t{z:016x}"),
        );
    }
    let mut listed = vec![0; rows];
    let mut levels = vec![0; rows];
    let number = leaves(tables, refined.counts, &mut listed, &mut levels).unwrap_or(0);
    for (&r, level) in listed.iter().zip(levels).take(number) {
        let row = tables.row(r as usize);
        let [v0, v1, v2, v3] = row.v;
        let (root, depth, tag) = (root_of(tables, r), row.depth, row.tag);
        let place = format_args!("L\t{r}\t{root}\t{depth}\t{level}\t{tag}").to_string();
        line(&mut out, format_args!("{place}\t{v0}\t{v1}\t{v2}\t{v3}"));
    }
    out
}

fn line(out: &mut Vec<u8>, fields: std::fmt::Arguments) {
    // Writing to a Vec cannot fail.
    let _ = out.write_fmt(fields);
    out.push(b'\n');
}

fn root_of(tables: Tables, row: u32) -> u32 {
    let parent = tables.row(row as usize).parent;
    if parent == row {
        row
    } else {
        root_of(tables, parent)
    }
}
