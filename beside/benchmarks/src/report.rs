//! The text of docs/BENCHMARKS.md.
use crate::beside::{Call, Line};
use crate::per_slot::{PerSlot, SIZES};
use crate::rounds::{PASSES, ROUNDS, WARMING};
use crate::table::table;

/// Where and with what the run was made.
pub struct Setting {
    pub processor: String,
    pub cores: usize,
    pub date: String,
    pub rustc: String,
    pub gcc: String,
    pub rt: String,
}

/// All that was measured.
pub struct Figures {
    pub beside: Vec<Line>,
    pub per_slot: Vec<PerSlot>,
    /// Nanoseconds of a call that has nothing to do but what every call does.
    pub toll: f64,
}

fn nanoseconds(figure: f64) -> String {
    format!("{figure:.2}")
}

impl Figures {
    fn beside_table(&self) -> String {
        let cells = |line: &Line| {
            let theirs = match line.slotmaps {
                Some(theirs) => [theirs.hop, theirs.basic, theirs.dense].map(nanoseconds),
                None => ["not compared", "", ""].map(String::from),
            };
            let [hop, basic, dense] = theirs;
            let ratio = line.ratio().map(|ratio| format!("{ratio:.2}")).unwrap_or_default();
            vec![line.name.clone(), line.per.to_string(), nanoseconds(line.ours), hop, ratio, basic, dense]
        };
        let head = ["ns", "per", "ours", "HopSlotMap", "ours / HopSlotMap", "SlotMap", "DenseSlotMap"];
        table(&head, &self.beside.iter().map(cells).collect::<Vec<_>>())
    }

    fn per_slot_table(&self) -> String {
        let sizes = SIZES.map(|slots| format!("{slots} slots"));
        let head: Vec<&str> = ["ns per slot"].into_iter().chain(sizes.iter().map(String::as_str)).collect();
        let cells = |line: &PerSlot| [line.name.to_string()].into_iter().chain(line.figures().into_iter().map(nanoseconds)).collect();
        table(&head, &self.per_slot.iter().map(cells).collect::<Vec<_>>())
    }

    /// Both tables, for the terminal.
    pub fn tables(&self) -> String {
        format!("{}\n{}", self.beside_table(), self.per_slot_table())
    }

    fn largest(&self) -> Option<(&Line, f64)> {
        let ratios = self.beside.iter().filter_map(|line| Some((line, line.ratio()?)));
        ratios.max_by(|one, other| one.1.total_cmp(&other.1))
    }

    fn walk(&self) -> f64 {
        self.beside.iter().find(|line| line.call == Call::Walk).map_or(0.0, |line| line.ours)
    }

    fn check(&self) -> f64 {
        self.per_slot.first().and_then(|line| line.figures().last().copied()).unwrap_or(0.0)
    }

    /// Where the time of a call likely goes.
    fn reason(&self, line: &Line) -> String {
        let (toll, check, walk, ours) = (self.toll, self.check(), self.walk(), line.ours);
        match line.call {
            Call::Get | Call::Replace => format!(
                "The test of the key is a call into the archive, of which {toll:.1} ns are the toll below; the original's is inlined to a few \
                 instructions."
            ),
            Call::Walk => format!(
                "Each step is a call into the archive, of which {toll:.1} ns are the toll below, and the next one waits for the cursor in its \
                 answer; the original's step is inlined, and its place in the walk stays in registers."
            ),
            Call::Insert | Call::Remove | Call::Pair => format!(
                "Each call tests every link that it follows before it writes a word, and {toll:.1} ns of each are the toll below; the original \
                 trusts its links and is inlined."
            ),
            Call::Drain => "Each row goes by a call of its own, which tests every link that it follows; the original trusts its links and is \
             inlined."
                .to_string(),
            Call::Clear => format!(
                "Ours checks the whole table first, at about {check:.1} ns a slot, and then takes row after row out with every link tested; the \
                 original trusts its links."
            ),
            Call::Retain => format!(
                "From Rust, retain checks the whole table before it asks the closure, walks over it by hop steps to ask, and then makes the call, \
                 which checks the whole table again and takes row after row out. By the other figures of this run, two checks at {check:.1} ns a \
                 slot and a walk at {walk:.1} ns a row are about {:.1} of its {ours:.1} ns; the original asks and removes in one pass, and trusts \
                 its links.",
                2.0 * check + walk
            ),
            Call::Rebuild => "Ours tests every presence byte before it writes a word, and then goes over versions, links and rows again.".to_string(),
        }
    }

    fn closing(&self) -> String {
        let largest = match self.largest() {
            Some((line, ratio)) => format!("The largest ratio is that of \"{}\": {ratio:.1}. {}", line.name, self.reason(line)),
            None => "Nothing was compared.".to_string(),
        };
        let toll = self.toll;
        format!(
            "{largest}\n\nThe toll of every call: the archive is not inlined, keeps nothing between calls and so tests the shape of the tables and \
             the header at each, and answers a struct of seventeen words in memory. `room`, which has nothing else to do, takes {toll:.1} ns from \
             Rust."
        )
    }
}

/// Breaks the lines of a paragraph.
fn wrapped(paragraph: &str) -> String {
    let mut text = String::new();
    let mut column = 0;
    for word in paragraph.split(' ') {
        if column > 0 && column + 1 + word.len() > 140 {
            text.push('\n');
            column = 0;
        } else if column > 0 {
            text.push(' ');
            column += 1;
        }
        text.push_str(word);
        column += word.len();
    }
    text
}

fn paragraphs(text: &str) -> String {
    text.split("\n\n").map(wrapped).collect::<Vec<_>>().join("\n\n")
}

fn opening() -> String {
    format!(
        "Ours beside slotmap 1.1.1. `./bench` measures and writes this file; nothing is asserted on time, and the figures are of one run on one \
         machine.\n\nBoth are release builds in one binary, made in one codegen unit and without LTO. Each figure is the best of {} rounds, in \
         {PASSES} passes over all lines with {WARMING} more rounds at the start of each to warm up; the maps take turns, round by round. A round \
         starts from the same rows in the same fixed order; the way back to its start is not timed. After each round all maps must have summed up \
         the same and hold the same rows, and ours and HopSlotMap the same keys; where they do not, there is no table.",
        PASSES * ROUNDS
    )
}

fn about_beside() -> String {
    "Ours is the safe map of bindings/rust, through the archive, but for the lines that say C: there the walk is a loop over `hop_step` with \
     include/hop.h, compiled by gcc -O2, as a firmware would have it (beside/benchmarks/walk.c). The original is HopSlotMap; SlotMap and \
     DenseSlotMap are slotmap's other maps, of the same row of eight words. All have room for 1,000 rows, and none grows. Insert, remove, get, \
     replace, drain, retain and clear: 1,000 rows, the keys shuffled; replace is `*get_mut(key) = row` in slotmap. The pair: 500 of 1,000 slots \
     live. The walk: 1,000 slots in use beside slot 0, the first word of each row summed up."
        .to_string()
}

fn about_rebuild() -> String {
    "(a) Ours makes links anew over versions and rows that stand in place, and clears the rows of vacant slots. slotmap's figures are of its \
     Deserialize, from a deserializer that reads versions and rows straight from memory: they include a new table (in DenseSlotMap three), and each \
     row copied into it word by word."
        .to_string()
}

fn about_per_slot() -> String {
    "Ours alone, with every slot lent in use and a shuffled half live; a round goes over as many maps as have 4,096 slots together. Retain keeps \
     about half of what is live."
        .to_string()
}

/// The whole file.
pub fn document(setting: &Setting, figures: &Figures) -> String {
    let Setting { processor, cores, date, rustc, gcc, rt } = setting;
    let parts = [
        "# Benchmarks".to_string(),
        paragraphs(&opening()),
        format!("- Processor: {processor}, {cores} cores\n- Compilers: {rustc}; {gcc}; {rt}\n- Date: {date}"),
        "## Beside slotmap".to_string(),
        paragraphs(&about_beside()),
        figures.beside_table().trim_end().to_string(),
        paragraphs(&about_rebuild()),
        "## Time per slot".to_string(),
        paragraphs(&about_per_slot()),
        figures.per_slot_table().trim_end().to_string(),
        "## The largest ratio".to_string(),
        paragraphs(&figures.closing()),
    ];
    parts.join("\n\n") + "\n"
}
