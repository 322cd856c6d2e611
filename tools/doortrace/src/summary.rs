//! How many steps were taken of each row and each procedure.
use crate::layout::Layout;
use crate::options::Order;
use crate::step::cut;
use model::words::counted;

/// The steps of each statement row, and of all.
pub struct Summary {
    counts: Vec<u64>,
    all: u64,
}

impl Summary {
    pub fn new(rows: usize) -> Summary {
        Summary { counts: vec![0; rows], all: 0 }
    }

    pub fn count(&mut self, row: usize) {
        self.counts[row] += 1;
        self.all += 1;
    }

    pub fn is_empty(&self) -> bool {
        self.all == 0
    }

    pub fn lines(&self, layout: &Layout, order: Order) -> String {
        let all = self.all;
        let mut text =
            format!("  steps percent   row  procedure and statement, of {}\n", counted(all as usize, "step"));
        for (row, count) in taken(&self.counts, order) {
            let procedure = layout.names.procedure(layout.program.procedure_at(row));
            let line = format!("{} {row:>5}  {procedure}: {}", share(count, all), layout.statement(row));
            text += &(cut(&line) + "\n");
        }
        text += "\n  steps percent  procedure\n";
        for (procedure, count) in taken(&self.procedures(layout), order) {
            text += &format!("{}  {}\n", share(count, all), layout.names.procedure(procedure));
        }
        text
    }

    fn procedures(&self, layout: &Layout) -> Vec<u64> {
        let program = layout.program;
        (0..program.procedures.len()).map(|p| self.counts[program.body(p)].iter().sum()).collect()
    }
}

/// Those that were taken at all, with their counts.
fn taken(counts: &[u64], order: Order) -> Vec<(usize, u64)> {
    let mut taken: Vec<(usize, u64)> = counts.iter().copied().enumerate().filter(|(_, count)| *count > 0).collect();
    if order == Order::Count {
        taken.sort_by_key(|(row, count)| (std::cmp::Reverse(*count), *row));
    }
    taken
}

/// A count, and how many of a hundred that is, rounded down to a tenth.
fn share(count: u64, all: u64) -> String {
    let thousandths = count * 1000 / all;
    format!("{count:>7} {:>5}.{}", thousandths / 10, thousandths % 10)
}
