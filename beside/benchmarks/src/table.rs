//! Tables in Markdown, with columns that line up in a terminal too.

/// Numbers stand to the right, all but the first column.
pub fn table(head: &[&str], lines: &[Vec<String>]) -> String {
    let head: Vec<String> = head.iter().map(ToString::to_string).collect();
    let widths: Vec<usize> = (0..head.len()).map(|column| width(&head, lines, column)).collect();
    let rule = widths.iter().enumerate().map(|(column, width)| if column == 0 { "-".repeat(*width) } else { format!("{}:", "-".repeat(width - 1)) });
    let rule: Vec<String> = rule.collect();
    let all = [&head, &rule].into_iter().chain(lines);
    all.map(|cells| line(cells, &widths)).collect()
}

fn width(head: &[String], lines: &[Vec<String>], column: usize) -> usize {
    lines.iter().map(|line| line[column].len()).chain([head[column].len(), 2]).max().unwrap_or(0)
}

fn line(cells: &[String], widths: &[usize]) -> String {
    let padded = cells.iter().zip(widths).enumerate();
    let padded = padded.map(|(column, (cell, width))| if column == 0 { format!(" {cell:<width$} |") } else { format!(" {cell:>width$} |") });
    format!("|{}\n", padded.collect::<String>())
}
