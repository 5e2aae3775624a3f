//! The table, line by line as the times come in, and the growth over a tenfold size.

use crate::race::Times;

struct Line {
    work: &'static str,
    rows: usize,
    times: [f64; 2],
}

#[derive(Default)]
pub struct Report {
    lines: Vec<Line>,
}

impl Report {
    pub fn begin() -> Report {
        println!("| call | rows | Lampethor ms | model ms | ratio | growth of rows | of Lampethor | of model |");
        println!("|---|--:|--:|--:|--:|--:|--:|--:|");
        Report::default()
    }

    /// Growth is that from the line before, where it is of the same work.
    pub fn line(&mut self, work: &'static str, rows: usize, times: Times) {
        let times = times.map(|t| t.as_secs_f64() * 1000.0);
        let [ours, model] = times;
        let before = self.lines.last().filter(|line| line.work == work);
        let growth = before.map_or(" | | ".to_string(), |b| {
            let by = rows as f64 / b.rows as f64;
            format!(
                "{by:.2} | {:.2} | {:.2}",
                ours / b.times[0],
                model / b.times[1]
            )
        });
        println!(
            "| {work} | {rows} | {ours:.3} | {model:.3} | {:.2} | {growth} |",
            ours / model
        );
        self.lines.push(Line { work, rows, times });
    }

    /// For each work the growth from the line nearest to 10,000 rows to the largest.
    pub fn end(&self) {
        println!("\n| call | rows from | to | growth of rows | of Lampethor | of model |");
        println!("|---|--:|--:|--:|--:|--:|");
        for to in self.lines.iter().filter(|line| line.rows > 80_000) {
            let same = self.lines.iter().filter(|line| line.work == to.work);
            let Some(from) = same.min_by_key(|line| line.rows.abs_diff(10_000)) else {
                continue;
            };
            let by = to.rows as f64 / from.rows as f64;
            let [ours, model] = [0, 1].map(|side| to.times[side] / from.times[side]);
            println!(
                "| {} | {} | {} | {by:.2} | {ours:.2} | {model:.2} |",
                to.work, from.rows, to.rows
            );
        }
    }
}
