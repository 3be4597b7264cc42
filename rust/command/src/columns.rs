//! Rows of a table in columns.

/// One side of a witness: pairs of a row and its count.
pub type Side = Vec<(u32, u32)>;

/// Whether an input, from 1 on, is true in a row, as 1 or 0.
fn place(row: u32, input: u32) -> u32 {
    row >> (input - 1) & 1
}

/// The names of the inputs.
fn names(inputs: u32) -> impl Iterator<Item = String> {
    (1..=inputs).map(|input| format!("x{input}"))
}

/// How often each input is true in a list, each row taken as often as it counts; before them the number of rows.
pub fn totals(inputs: u32, rows: &Side) -> Vec<u64> {
    let total = |part: &dyn Fn(u32) -> u32| rows.iter().map(|&(row, count)| u64::from(part(row)) * u64::from(count)).sum();
    std::iter::once(total(&|_| 1)).chain((1..=inputs).map(|input| total(&|row| place(row, input)))).collect()
}

/// The two lists of a witness, true rows and false rows, side by side, each with its totals below.
pub fn side_by_side(inputs: u32, sides: &[Side; 2]) -> Vec<String> {
    let height = sides.iter().map(Vec::len).max().unwrap_or(0);
    let [left, right] = ["true rows", "false rows"];
    let cells = sides.iter().map(|rows| list(inputs, rows, height)).collect::<Vec<_>>();
    let widths = widths(cells.iter().flatten());
    let width = left.len().max(widths.iter().sum::<usize>() + widths.len() - 1);
    let titles = [format!("{left:width$}     {right}")];
    let lines = cells[0].iter().zip(&cells[1]).map(|(left, right)| {
        let both = format!("{:width$}     {}", aligned(left, &widths), aligned(right, &widths));
        both.trim_end().to_string()
    });
    titles.into_iter().chain(lines).collect()
}

/// The cells of one list: a head, the rows, blank lines up to the height, the totals.
fn list(inputs: u32, rows: &Side, height: usize) -> Vec<Vec<String>> {
    let head = ["row", "times"].map(String::from).into_iter().chain(names(inputs)).collect();
    let blank = vec![String::new(); inputs as usize + 2];
    let totals = totals(inputs, rows);
    let last = std::iter::once("sum".to_string()).chain(totals.iter().map(u64::to_string)).collect();
    let cells = |&(row, count): &(u32, u32)| {
        let places = (1..=inputs).map(|input| place(row, input));
        [row, count].into_iter().chain(places).map(|number| number.to_string()).collect()
    };
    let mut lines = vec![head];
    lines.extend(rows.iter().map(cells));
    lines.resize(height + 1, blank);
    lines.push(last);
    lines
}

/// Each row of a table with its inputs, and further columns: a head, and what stands there on a row.
pub fn each_row(inputs: u32, further: &[(&str, &dyn Fn(u32) -> String)]) -> Vec<String> {
    let heads = further.iter().map(|(head, _)| head.to_string());
    let head = std::iter::once("row".to_string()).chain(names(inputs)).chain(heads).collect();
    let mut cells: Vec<Vec<String>> = vec![head];
    for row in 0..1 << inputs {
        let places = (1..=inputs).map(|input| place(row, input).to_string());
        let values = further.iter().map(|(_, value)| value(row));
        cells.push(std::iter::once(row.to_string()).chain(places).chain(values).collect());
    }
    let widths = widths(cells.iter());
    cells.iter().map(|line| aligned(line, &widths)).collect()
}

/// A row by the values of its inputs: `x1 = 1, x2 = 0`.
pub fn described(row: u32, inputs: u32) -> String {
    let places: Vec<String> = names(inputs).zip(1..).map(|(name, input)| format!("{name} = {}", place(row, input))).collect();
    places.join(", ")
}

/// The width of each column.
fn widths<'a>(lines: impl Iterator<Item = &'a Vec<String>>) -> Vec<usize> {
    lines.fold(Vec::new(), |mut widths, line| {
        widths.resize(widths.len().max(line.len()), 0);
        line.iter().zip(&mut widths).for_each(|(cell, width)| *width = cell.len().max(*width));
        widths
    })
}

/// A line of cells, each at the right of its column.
fn aligned(line: &[String], widths: &[usize]) -> String {
    let cells: Vec<String> = line.iter().zip(widths).map(|(cell, width)| format!("{cell:>width$}")).collect();
    cells.join(" ")
}

#[cfg(test)]
mod tests {
    use super::*;

    #[test]
    fn lists_stand_side_by_side_with_their_totals() {
        let lines = side_by_side(4, &[vec![(3, 1), (12, 1)], vec![(5, 1), (10, 1)]]);
        let expected = [
            "true rows                 false rows",
            "row times x1 x2 x3 x4     row times x1 x2 x3 x4",
            "  3     1  1  1  0  0       5     1  1  0  1  0",
            " 12     1  0  0  1  1      10     1  0  1  0  1",
            "sum     2  1  1  1  1     sum     2  1  1  1  1",
        ];
        assert_eq!(lines, expected);
    }

    #[test]
    fn counts_widen_their_columns_and_short_lists_end_level() {
        let lines = side_by_side(1, &[vec![(1, 1_000_000)], vec![(0, 2), (1, 999)]]);
        let expected = [
            "true rows                  false rows",
            "row   times      x1     row   times      x1",
            "  1 1000000       1       0       2       0",
            "                          1     999       1",
            "sum 1000000 1000000     sum    1001     999",
        ];
        assert_eq!(lines[1..], expected[1..]);
        assert_eq!(lines[0], "true rows               false rows");
        assert_eq!(side_by_side(0, &[vec![(0, 1)], vec![]])[2], "  0     1");
    }

    #[test]
    fn rows_have_their_columns() {
        let lines = each_row(2, &[("value", &|row| u8::from(row == 3).to_string()), ("sum", &|row| (-10 * i64::from(row)).to_string())]);
        let expected = ["row x1 x2 value sum", "  0  0  0     0   0", "  1  1  0     0 -10", "  2  0  1     0 -20", "  3  1  1     1 -30"];
        assert_eq!(lines, expected);
        assert_eq!(described(2, 3), "x1 = 0, x2 = 1, x3 = 0");
    }
}
