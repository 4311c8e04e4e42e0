//! The floors of docs/PERFORMANCE.md: for each figure, the Rust's time over ours in one run, the least that it may be.

use std::fmt;

/// The table stands under this heading, a line a figure: layer, figure, floor.
const HEADING: &str = "## Floors";

/// A ratio, measured or at the least.
#[derive(Clone, PartialEq, Debug)]
pub struct Figure {
    pub layer: String,
    pub name: String,
    pub ratio: f64,
}

/// A line of the table.
impl fmt::Display for Figure {
    fn fmt(&self, f: &mut fmt::Formatter<'_>) -> fmt::Result {
        write!(f, "| {} | {} | {:.3} |", self.layer, self.name, self.ratio)
    }
}

/// The floors that a document has; at least one, and none twice.
pub fn parse(document: &str) -> Result<Vec<Figure>, String> {
    let lines = document.lines().skip_while(|line| *line != HEADING).skip(1);
    let section = lines.take_while(|line| !line.starts_with("## "));
    let rows = section.filter(|line| line.starts_with('|'));
    let mut floors: Vec<Figure> = Vec::new();
    // The first two lines are the names of the columns and the rule below them.
    for line in rows.skip(2) {
        let cells: Vec<&str> = line.trim_matches('|').split('|').map(str::trim).collect();
        let [layer, name, floor] = cells[..] else {
            return Err(format!("not three cells: {line}"));
        };
        let ratio: f64 = floor.parse().map_err(|_| format!("no number: {line}"))?;
        if !(ratio > 0.0 && ratio.is_finite()) {
            return Err(format!("no floor: {line}"));
        }
        let (layer, name) = (layer.to_string(), name.to_string());
        if floors.iter().any(|f| f.layer == layer && f.name == name) {
            return Err(format!("a second floor: {line}"));
        }
        floors.push(Figure { layer, name, ratio });
    }
    if floors.is_empty() {
        return Err(format!("no floors under {HEADING:?}"));
    }
    Ok(floors)
}

/// What is wrong, a line each: every figure that is below its floor, and every floor of a layer that was timed whose
/// figure was not.
pub fn below(floors: &[Figure], figures: &[Figure]) -> Vec<String> {
    let same = |a: &Figure, b: &Figure| (&a.layer, &a.name) == (&b.layer, &b.name);
    let mut lines = Vec::new();
    for floor in floors {
        let Figure { layer, name, ratio } = floor;
        match figures.iter().find(|figure| same(figure, floor)) {
            // Not `<`: what is no number is below every floor.
            Some(figure) if figure.ratio >= *ratio => {}
            Some(figure) => lines.push(format!(
                "below its floor: {layer}, {name}: {:.3}, and the floor is {ratio}",
                figure.ratio
            )),
            None if figures.iter().any(|figure| figure.layer == *layer) => {
                lines.push(format!("a floor of no figure: {layer}, {name}"));
            }
            None => {}
        }
    }
    lines
}

/// Figures that no floor is set for.
pub fn without(floors: &[Figure], figures: &[Figure]) -> usize {
    let set = |figure: &&Figure| {
        let same = |floor: &Figure| (&floor.layer, &floor.name) == (&figure.layer, &figure.name);
        !floors.iter().any(same)
    };
    figures.iter().filter(set).count()
}

/// docs/PERFORMANCE.md of this repository.
pub fn document() -> Result<String, String> {
    let path = concat!(env!("CARGO_MANIFEST_DIR"), "/../../docs/PERFORMANCE.md");
    std::fs::read_to_string(path).map_err(|why| format!("{path}: {why}"))
}

#[cfg(test)]
mod tests {
    use super::*;

    fn figure(layer: &str, name: &str, ratio: f64) -> Figure {
        let (layer, name) = (layer.to_string(), name.to_string());
        Figure { layer, name, ratio }
    }

    const SAMPLE: &str = "# Performance\n\n| layer | not | 9 |\n\n## Floors\n\nWords.\n\n| layer | figure | floor |\n|---|---|---|\n| io | u32, 1 MiB | 0.9 |\n| table | decode, 10,000 | 12 |\n\n## After\n\n| a | b | 7 |\n";

    #[test]
    fn floors_are_read_from_their_section_alone() {
        let floors = [
            figure("io", "u32, 1 MiB", 0.9),
            figure("table", "decode, 10,000", 12.0),
        ];
        assert_eq!(parse(SAMPLE).unwrap(), floors);
        assert_eq!(floors[1].to_string(), "| table | decode, 10,000 | 12.000 |");
        let twice = SAMPLE.replace("table | decode, 10,000", "io | u32, 1 MiB");
        assert!(parse(&twice).unwrap_err().starts_with("a second floor"));
        for (wrong, why) in [
            ("x", "no number"),
            ("0", "no floor"),
            ("0.9 | 1", "not three"),
        ] {
            let wrong = SAMPLE.replace("| 0.9 |", &format!("| {wrong} |"));
            assert!(parse(&wrong).unwrap_err().starts_with(why), "{wrong}");
        }
        assert!(parse("## Floors\n\nnone\n").is_err() && parse("").is_err());
    }

    #[test]
    fn a_figure_below_its_floor_is_seen() {
        let floors = parse(SAMPLE).unwrap();
        let good = [
            figure("io", "u32, 1 MiB", 0.9),
            figure("table", "decode, 10,000", 30.0),
        ];
        assert!(below(&floors, &good).is_empty());
        let slow = [figure("io", "u32, 1 MiB", 0.89), good[1].clone()];
        assert_eq!(
            below(&floors, &slow),
            ["below its floor: io, u32, 1 MiB: 0.890, and the floor is 0.9"]
        );
        let none = [figure("io", "u32, 1 MiB", f64::NAN)];
        assert_eq!(below(&floors, &none).len(), 1);
        // A layer that was not timed is not missed; a figure of one that was is.
        assert!(below(&floors, &good[..1]).is_empty());
        let renamed = [figure("io", "u32", 2.0), good[1].clone()];
        assert_eq!(
            below(&floors, &renamed),
            ["a floor of no figure: io, u32, 1 MiB"]
        );
        assert_eq!(
            (without(&floors, &renamed), without(&floors, &good)),
            (1, 0)
        );
    }

    /// The document's own floors, and that a figure just below one of them is found.
    #[test]
    fn the_document_can_fail() {
        let floors = parse(&document().unwrap()).unwrap();
        let layers = [
            "io", "table", "text", "buffer", "function", "parsing", "debug", "callees",
        ];
        for layer in layers {
            assert!(floors.iter().any(|floor| floor.layer == layer), "{layer}");
        }
        assert!(floors
            .iter()
            .all(|floor| layers.contains(&floor.layer.as_str())));
        assert!(below(&floors, &floors).is_empty());
        for slow in 0..floors.len() {
            let mut figures = floors.clone();
            figures[slow].ratio *= 0.99;
            assert_eq!(below(&floors, &figures).len(), 1, "{}", floors[slow]);
        }
    }
}
