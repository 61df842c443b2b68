//! The figures, as a table and as CSV.
use std::io::Write;

/// A line of the table, and one of the CSV; times in nanoseconds.
#[derive(Default)]
pub struct Figure {
    pub call: String,
    pub file: &'static str,
    /// Bytes of a text, and how many texts.
    pub text: Option<(usize, usize)>,
    pub public: Option<f64>,
    pub check: Option<f64>,
    pub core: Option<f64>,
    pub rust: Option<f64>,
}

impl Figure {
    const TABLE: &'static str = "| call | file | text | ours, public | check | ours, core | Rust | ratio |";
    const CSV: &'static str = "call,file,bytes,texts,ours,rust,ratio";

    fn ratio(&self) -> Option<f64> {
        Some(self.core? / self.rust?)
    }

    pub fn name(&self) -> String {
        match self.text {
            Some((_, texts)) if texts > 1 => format!("{}, {texts} texts in turn", self.call),
            _ => self.call.clone(),
        }
    }

    fn table(&self) -> String {
        format!(
            "| {} | {} | {} | {} | {} | {} | {} | {} |",
            self.name(),
            self.file,
            shown(self.text.map(|(size, _)| size as f64)),
            shown(self.public),
            shown(self.check),
            shown(self.core),
            shown(self.rust),
            decimals(self.ratio(), 2)
        )
    }

    /// Ours is the core, or the public call where no core is shown.
    fn csv(&self) -> String {
        let (size, texts) = self.text.map(|(size, texts)| (size.to_string(), texts.to_string())).unwrap_or_default();
        let (ours, rust) = (decimals(self.core.or(self.public), 1), decimals(self.rust, 1));
        format!("\"{}\",\"{}\",{size},{texts},{ours},{rust},{}", self.call, self.file, decimals(self.ratio(), 3))
    }
}

/// Where the figures go as they come, and which are wanted.
pub struct Report {
    pub rounds: usize,
    pub only: String,
    pub csv: Box<dyn Write>,
}

impl Report {
    pub fn wants(&self, name: &str) -> bool {
        name.contains(&self.only)
    }

    pub fn begin(&mut self) {
        println!("ns, best of {} rounds; core is public minus check; the ratio is core to Rust\n", self.rounds);
        println!("{}\n|---|---|---|---|---|---|---|---|", Figure::TABLE);
        writeln!(self.csv, "{}", Figure::CSV).expect("the CSV");
    }

    pub fn add(&mut self, figure: Figure) {
        println!("{}", figure.table());
        writeln!(self.csv, "{}", figure.csv()).expect("the CSV");
    }
}

fn shown(time: Option<f64>) -> String {
    match time {
        None => String::new(),
        Some(t) if t < 100.0 => format!("{t:.1}"),
        Some(t) => {
            let digits = format!("{t:.0}");
            let mut text = String::new();
            for (i, c) in digits.chars().enumerate() {
                if i > 0 && (digits.len() - i) % 3 == 0 {
                    text.push(',');
                }
                text.push(c);
            }
            text
        }
    }
}

fn decimals(number: Option<f64>, digits: usize) -> String {
    number.map(|x| format!("{x:.digits$}")).unwrap_or_default()
}

#[cfg(test)]
mod tests {
    use super::Figure;

    #[test]
    fn a_figure_in_the_table_and_in_the_csv() {
        let file = "1,356 rows, grid";
        let figure = |call: &str| Figure { call: call.to_string(), file, ..Figure::default() };
        let turns = Figure {
            text: Some((4096, 64)),
            public: Some(113_200.0),
            check: Some(5_250.0),
            core: Some(107_950.0),
            rust: Some(412_244.0),
            ..figure("merging")
        };
        assert_eq!(
            turns.table(),
            "| merging, 64 texts in turn | 1,356 rows, grid | 4,096 | 113,200 | 5,250 | 107,950 | 412,244 | 0.26 |"
        );
        assert_eq!(turns.csv(), "\"merging\",\"1,356 rows, grid\",4096,64,107950.0,412244.0,0.262");
        let check = Figure { public: Some(5_286.4), check: Some(5_286.4), ..figure("check") };
        assert_eq!(check.table(), "| check | 1,356 rows, grid |  | 5,286 | 5,286 |  |  |  |");
        assert_eq!(check.csv(), "\"check\",\"1,356 rows, grid\",,,5286.4,,");
    }
}
