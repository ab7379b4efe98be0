//! Tables with headings, in columns as wide as what stands in them, or on a terminal as wide as it has room for.
use crate::{shown, terminal};
use std::collections::{HashMap, HashSet};
use std::io;

/// The side of its column on which a cell stands.
#[derive(Clone, Copy, PartialEq, Eq)]
pub enum Side {
    Left,
    Right,
    /// The left, for names, which may be long, and keep so many columns on the narrowest terminal.
    Name(usize),
}

/// The columns that a name needs.
pub const LEAST: usize = 8;
/// The spaces between columns, where there is room.
const GAP: usize = 2;
/// What stands for the middle of a cell that is too long.
const CUT: &str = "..";

/// The rows for standard output; the first row holds the headings.
pub fn table(sides: impl AsRef<[Side]>, rows: &[impl AsRef<[String]>]) -> String {
    fitted(sides, rows, terminal::columns(&io::stdout()))
}

/// The rows with two spaces between columns. Where so many columns of a terminal are too few, names are cut in
/// the middle, and then one space stands between columns; all else stays whole, and so do names that would look
/// alike.
pub fn fitted(
    sides: impl AsRef<[Side]>,
    rows: &[impl AsRef<[String]>],
    room: Option<usize>,
) -> String {
    let sides = sides.as_ref();
    let shape = shape(sides, rows, room, GAP).unwrap_or_else(|narrowest| narrowest);
    laid_out(sides, rows, &shape)
}

/// Several tables, each fitted, with the same spaces between columns.
pub fn fitted_alike(tables: &[(Vec<Side>, Vec<Vec<String>>)], room: Option<usize>) -> Vec<String> {
    let shaped = |gap: usize| {
        let shape = move |(sides, rows): &(Vec<Side>, Vec<Vec<String>>)| {
            shape(sides, rows, room, gap).unwrap_or_else(|narrowest| narrowest)
        };
        tables.iter().map(shape)
    };
    let gap = shaped(GAP).map(|(_, gap)| gap).min().unwrap_or(GAP);
    let tables = tables.iter().zip(shaped(gap));
    tables
        .map(|((sides, rows), shape)| laid_out(sides, rows, &shape))
        .collect()
}

/// The rows in a shape.
fn laid_out(sides: &[Side], rows: &[impl AsRef<[String]>], (widths, gap): &Shape) -> String {
    let columns: Vec<_> = (0..sides.len())
        .map(|column| {
            let cells = rows.iter().map(|row| row.as_ref()[column].as_str());
            told_apart(&cells.collect::<Vec<_>>(), widths[column])
        })
        .collect();
    let line = |row: usize| {
        let cells = columns.iter().zip(widths).zip(sides);
        let cells: Vec<_> = cells
            .map(|((cells, &width), &side)| padded(&cells[row], width, side))
            .collect();
        cells.join(&" ".repeat(*gap)).trim_end().to_string() + "\n"
    };
    (0..rows.len()).map(line).collect()
}

/// Whether the rows have room in so many columns of a terminal, with their names cut where that is needed.
pub fn has_room(
    sides: impl AsRef<[Side]>,
    rows: &[impl AsRef<[String]>],
    room: Option<usize>,
) -> bool {
    shape(sides.as_ref(), rows, room, GAP).is_ok()
}

/// The widths of the columns, and the spaces between them.
type Shape = (Vec<usize>, usize);

/// The widest shape of the rows that has room, with so many spaces between columns at most, or the narrowest where
/// none has.
fn shape(
    sides: &[Side],
    rows: &[impl AsRef<[String]>],
    room: Option<usize>,
    widest_gap: usize,
) -> Result<Shape, Shape> {
    let width = |column: usize| {
        let cells = rows.iter().map(|row| shown::width(&row.as_ref()[column]));
        cells.max().unwrap_or(0)
    };
    let whole: Vec<_> = (0..sides.len()).map(width).collect();
    let widths = |most: usize| -> Vec<_> {
        let cut = |(&width, side): (&usize, &Side)| match *side {
            Side::Name(least) => width.min(most.max(least)),
            Side::Left | Side::Right => width,
        };
        whole.iter().zip(sides).map(cut).collect()
    };
    let fits = |&(most, gap): &(usize, usize)| {
        let needed = widths(most).iter().sum::<usize>() + gap * (sides.len() - 1);
        room.is_none_or(|room| needed <= room)
    };
    let widest = whole.iter().copied().max().unwrap_or(0).max(LEAST);
    let mut shapes = (1..=widest_gap)
        .rev()
        .flat_map(|gap| (LEAST..=widest).rev().map(move |most| (most, gap)));
    match shapes.find(fits) {
        Some((most, gap)) => Ok((widths(most), gap)),
        None => Err((widths(LEAST), 1)),
    }
}

/// The cells of a column, cut to so many columns, but for those that would be shown as another cell is.
fn told_apart(cells: &[&str], most: usize) -> Vec<String> {
    let mut shown: HashMap<String, &str> = HashMap::new();
    let mut alike = HashSet::new();
    for &cell in cells {
        let cut = cut(cell, most);
        match shown.get(&cut) {
            Some(&other) if other != cell => {
                alike.insert(cut);
            }
            _ => {
                shown.insert(cut, cell);
            }
        }
    }
    let told = |&cell: &&str| {
        Some(cut(cell, most))
            .filter(|cut| !alike.contains(cut))
            .unwrap_or_else(|| cell.to_string())
    };
    cells.iter().map(told).collect()
}

/// A cell in so many columns.
fn padded(cell: &str, width: usize, side: Side) -> String {
    let room = " ".repeat(width.saturating_sub(shown::width(cell)));
    match side {
        Side::Right => room + cell,
        Side::Left | Side::Name(_) => cell.to_string() + &room,
    }
}

/// A cell that takes so many columns at most, without its middle if it is longer.
fn cut(cell: &str, most: usize) -> String {
    if shown::width(cell) <= most {
        return cell.to_string();
    }
    let room = most.saturating_sub(CUT.len());
    let end = first(cell.chars().rev(), room / 2);
    let end: String = end.chars().rev().collect();
    first(cell.chars(), room - room / 2) + CUT + &end
}

/// The first characters, as many as have room.
fn first(letters: impl Iterator<Item = char>, room: usize) -> String {
    let mut taken = String::new();
    for letter in letters {
        taken.push(letter);
        if shown::width(&taken) > room {
            taken.pop();
            break;
        }
    }
    taken
}

#[cfg(test)]
mod tests {
    use super::*;

    /// A table of a name and a number, on a terminal of so many columns.
    fn of(name: &str, room: Option<usize>) -> String {
        let rows = [["job", "points"], [name, "3"], ["1 planned", "12345"]];
        let rows = rows.map(|row| row.map(str::to_string));
        fitted([Side::Name(10), Side::Right], &rows, room)
    }

    #[test]
    fn columns_are_as_wide_as_what_stands_in_them() {
        let wanted = "job        points\npair.job        3\n1 planned   12345\n";
        for room in [None, Some(200), Some(17)] {
            assert_eq!(of("pair.job", room), wanted);
        }
        // two columns for each of the two characters
        let wanted = "job        points\n\u{5c01}\u{5370}.job        3\n1 planned   12345\n";
        assert_eq!(of("\u{5c01}\u{5370}.job", None), wanted);
    }

    #[test]
    fn long_cells_are_cut_in_the_middle_where_there_is_no_room() {
        let name = "a".repeat(30) + ".job";
        assert!(of(&name, None).contains(&name));
        let wanted = "job             points\naaaaaa..aa.job       3\n1 planned        12345\n";
        assert_eq!(of(&name, Some(22)), wanted);
        let wide = "\u{5c01}".repeat(20);
        for room in 18..60 {
            let printed = of(&wide, Some(room));
            assert!(
                printed.lines().all(|line| shown::width(line) <= room),
                "{printed}"
            );
        }
    }

    #[test]
    fn names_that_would_look_alike_are_whole() {
        let long = |middle: &str| format!("{}{middle}{}.job", "a".repeat(20), "z".repeat(20));
        let (one, two) = (long("1"), long("2"));
        // the last is what the first would be cut to
        let names = [
            &one,
            &two,
            &long("1"),
            "a.job",
            "bbbbbbbbbbbbbbbbbb",
            "aaaaa...job",
        ];
        let rows = names.map(|name| [name.to_string(), "3".to_string()]);
        let printed = fitted([Side::Name(LEAST), Side::Right], &rows, Some(14));
        let wanted = format!(
            "{one}  3\n{two}  3\n{one}  3\na.job        3\nbbbbb..bbbb  3\naaaaa...job  3\n"
        );
        assert_eq!(printed, wanted);
        let rows = [&one, "aaaaa...job"].map(|name| [name.to_string(), "3".to_string()]);
        let printed = fitted([Side::Name(LEAST), Side::Right], &rows, Some(14));
        assert_eq!(printed, format!("{one}  3\naaaaa...job  3\n"));
        // in any order
        let rows = ["aaaaa...job", &one].map(|name| [name.to_string(), "3".to_string()]);
        let printed = fitted([Side::Name(LEAST), Side::Right], &rows, Some(14));
        assert_eq!(printed, format!("aaaaa...job  3\n{one}  3\n"));
    }

    #[test]
    fn narrow_terminals_have_one_space_between_columns_and_whole_numbers() {
        let name = "a".repeat(30) + ".job";
        let wanted = "job        points\naaaa...job      3\n1 planned   12345\n";
        assert_eq!(of(&name, Some(17)), wanted);
        for room in [1, 10, 16] {
            assert_eq!(of(&name, Some(room)), wanted);
        }
        // what is no name is never cut
        let rows = [["plan"; 2], ["refused by its job"; 2]].map(|row| row.map(str::to_string));
        let printed = fitted([Side::Left; 2], &rows, Some(1));
        assert_eq!(printed.matches("refused by its job").count(), 2);
    }
}
