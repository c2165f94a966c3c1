//! The desk's questions about a run of their own: `second worked FROM TO < input` works its events step by step, as docs/by-hand.md does,
//! and `second state EVENT < input` shows the link after an event. A word `-` stands for the first event, or the last. Their input may have
//! any length. Where the plan is refused, or an event record is, the last line is `stop` number place, as in a run. DESK_WIDTH says how many
//! columns a line may have.

use super::by_hand::{events_of, worked as work, Event};
use super::*;

/// No line of prose is longer than this, and a table that is wider is turned on its side, or drawn narrower.
fn width() -> usize {
    std::env::var("DESK_WIDTH").ok().and_then(|word| word.parse().ok()).unwrap_or(108)
}

/// The words of a question: a number, or `-`, which leaves it open.
fn asked(words: &[String], position: usize) -> Option<usize> {
    let word = words.get(position).expect("worked FROM TO, or state EVENT");
    if word == "-" { None } else { Some(word.parse().expect("an event's number")) }
}

/// `stop` number place.
fn stop(refusal: Refusal) -> String {
    format!("stop {} {}", refusal.number, refusal.place)
}

/// The answer to a question.
pub fn answer(words: &[String], input: &[u8]) -> Vec<String> {
    let (tree, events, fault) = match events_of(input) {
        Ok(parts) => parts,
        Err(refusal) => return vec![stop(refusal)],
    };
    let mut lines = match words[0].as_str() {
        "worked" => worked(&tree, &events, asked(words, 1).unwrap_or(1), asked(words, 2).unwrap_or(events.len())),
        _ => state(&tree, &events, asked(words, 1).unwrap_or(events.len())),
    };
    lines.extend(fault.map(stop));
    lines
}

// ---------------------------------------------------------------------------------------------
// The worked run.

/// The events from `from` to `to`, step by step, with tables in columns.
fn worked(tree: &Tree, events: &[Event], from: usize, to: usize) -> Vec<String> {
    let all = events.len();
    let to = to.min(all);
    if from < 1 || from > to {
        return vec![format!("The run has {all} events; none from {from} to {to}.")];
    }
    let rule = if tree.rule == ACTIVE_CLASSES { ", rule 2" } else { "" };
    let mut lines = vec![format!("Events {from} to {to} of {all}; {} classes, Q {}{rule}", tree.count(), tree.round_size()), String::new()];
    let (mut rows, mut words): (Vec<Vec<String>>, Vec<String>) = (Vec::new(), Vec::new());
    for line in work(tree, events, from, to, 1).into_iter().chain([String::new()]) {
        match line.strip_prefix("| ").and_then(|rest| rest.strip_suffix(" |")) {
            Some(cells) => rows.push(cells.split(" | ").map(str::to_string).collect()),
            None if line.starts_with("|---") => {}
            None if !line.is_empty() => words.push(line.replace("**", "")),
            None => {
                lines.append(&mut wrapped(&std::mem::take(&mut words).join(" "), ""));
                lines.append(&mut shown(std::mem::take(&mut rows)));
                lines.push(line);
            }
        }
    }
    lines.pop();
    lines
}

/// A text in lines of at most that width; those after the first stand further in by `indent`.
pub fn wrapped(text: &str, indent: &str) -> Vec<String> {
    let (mut lines, mut line) = (Vec::new(), String::new());
    for word in text.split_whitespace() {
        if !line.is_empty() && line.chars().count() + 1 + word.chars().count() > width() {
            lines.push(std::mem::replace(&mut line, indent.trim_end_matches(' ').to_string()));
            line.push_str(indent);
        } else if !line.is_empty() {
            line.push(' ');
        }
        line.push_str(word);
    }
    if !line.is_empty() {
        lines.push(line);
    }
    lines
}

/// A table as a screen shows it: the shares of an opening class by class in words, all else in columns.
fn shown(rows: Vec<Vec<String>>) -> Vec<String> {
    if rows.first().is_none_or(|heads| heads[0] != "Class") {
        return in_columns(rows, 2);
    }
    let share = |row: &Vec<String>| {
        let [class, x, w, f, down, keeps] = &row[..] else { panic!("an opening's row") };
        wrapped(&format!("Class {class}: X = {x}; W = {w}; F: {f}. Hands down {down}. Keeps {keeps}."), "  ")
    };
    rows.iter().skip(1).flat_map(|row| share(row)).map(|line| line.replacen("Class root", "Root", 1)).collect()
}

/// How wide each column of a table is, and all of it with so many blanks between two columns.
fn widths(rows: &[Vec<String>], gap: usize) -> (Vec<usize>, usize) {
    let columns = rows.first().map_or(0, Vec::len);
    let each: Vec<usize> = (0..columns).map(|c| rows.iter().map(|row| row[c].chars().count()).max().unwrap_or(0)).collect();
    let all = each.iter().sum::<usize>() + gap * columns.saturating_sub(1);
    (each, all)
}

/// A table's rows, each cell as wide as its column: a number stands at its right, a text at its left. A table that is too wide is turned, so
/// that its columns become lines.
fn in_columns(rows: Vec<Vec<String>>, gap: usize) -> Vec<String> {
    let columns = rows.first().map_or(0, Vec::len);
    let (widths, all) = widths(&rows, gap);
    if all > width() && columns > rows.len() {
        return in_columns((0..columns).map(|c| rows.iter().map(|row| row[c].clone()).collect()).collect(), gap);
    }
    let right: Vec<bool> = (0..columns).map(|c| rows.iter().skip(1).all(|row| row[c].chars().all(|sign| sign.is_ascii_digit()))).collect();
    let cell = |text: &String, c: usize| match right[c] {
        true => format!("{text:>width$}", width = widths[c]),
        false => format!("{text:<width$}", width = widths[c]),
    };
    let blanks = " ".repeat(gap);
    let line = |row: &Vec<String>| row.iter().enumerate().map(|(c, text)| cell(text, c)).collect::<Vec<String>>().join(&blanks);
    rows.iter().map(|row| line(row).trim_end().to_string()).collect()
}

// ---------------------------------------------------------------------------------------------
// The state at a moment.

/// The link after so many events, and the line of the last of them.
fn link_after(tree: &Tree, events: &[Event]) -> (Link, String) {
    let (mut link, _) = fresh_link(tree);
    let mut siblings = siblings::Siblings::of(tree);
    let mut line = format!("link {} {}", tree.count(), link.size);
    for event in events {
        line = match *event {
            Event::Arrival { class, length, tag } => match arrival(&mut link, class, length, tag) {
                Ok(waiting) => format!("in {class} {length} {tag} {waiting}"),
                Err(refusal) => format!("no {class} {length} {tag} {}", refusal.number),
            },
            Event::Send => match siblings.send(&mut link) {
                Ok(sent) => sent.line(),
                Err(_) => "none".to_string(),
            },
        };
    }
    (link, line)
}

/// The class and its row of the table.
fn row_of(link: &Link, name: String, class: usize) -> Vec<String> {
    let Account { balance, residual } = link.accounts[class];
    let totals::Total { packets, bytes } = link.totals[class];
    let weight = if class == ROOT { String::new() } else { link.tree.classes[class].weight.to_string() };
    let residual = if link.tree.is_leaf(class) { String::new() } else { residual.to_string() };
    let active = if link.active[class] { "yes" } else { "no" };
    let first = link.queues[class].first().map_or(String::new(), |packet| packet.charge().to_string());
    [name, weight, balance.to_string(), residual, active.to_string(), packets.to_string(), bytes.to_string(), first].to_vec()
}

/// A class as it is named where a level takes so many columns; with 0 the classes are a list, each with its parent.
fn name_of(tree: &Tree, class: usize, step: usize) -> String {
    let Class { sort, parent, .. } = tree.classes[class];
    match (step, sort) {
        (0, Sort::Root) | (1, _) => class.to_string(),
        (0, _) => format!("{class}^{parent}"),
        (_, Sort::Root) => format!("{class} root"),
        (_, Sort::Inner) => format!("{class} inner"),
        (_, Sort::Leaf) => format!("{class} leaf"),
    }
}

/// A class and all below it: `lead` stands before its own row, `under` before the rows of its children; a level takes `step` columns.
fn rows_below(link: &Link, class: usize, step: usize, lead: &str, under: &str, rows: &mut Vec<Vec<String>>) {
    rows.push(row_of(link, format!("{lead}{}", name_of(&link.tree, class, step)), class));
    let cut = |text: &str| text.chars().take(step.min(3)).collect::<String>() + if step == 4 { " " } else { "" };
    let children = link.tree.children(class);
    for (position, &child) in children.iter().enumerate() {
        let (corner, along) = if position + 1 == children.len() { ("└──", "   ") } else { ("├──", "│  ") };
        rows_below(link, child, step, &format!("{under}{}", cut(corner)), &format!("{under}{}", cut(along)), rows);
    }
}

/// The layouts of the state, from roomy to narrow: columns a level takes, and whether all columns are shown.
const LAYOUTS: [(usize, bool); 7] = [(4, true), (2, true), (1, true), (0, true), (2, false), (1, false), (0, false)];

/// The classes as a table, in the first layout that fits.
fn classes_shown(link: &Link) -> Vec<String> {
    for (step, full) in LAYOUTS {
        let heads = ["class", "weight", "balance", "residual", "active", "packets", "bytes", "first"].map(str::to_string).to_vec();
        let mut rows = vec![heads];
        rows_below(link, ROOT, step, "", "", &mut rows);
        if !full {
            let short = ["class", "", "B", "R", "on", "n", "bytes", ""].map(str::to_string).to_vec();
            rows[0] = short;
            for row in &mut rows {
                row.remove(7);
                row.remove(1);
            }
        }
        let gap = if full { 2 } else { 1 };
        if widths(&rows, gap).1 <= width() || (step, full) == (0, false) {
            return in_columns(rows, gap);
        }
    }
    unreachable!("the last layout is shown")
}

/// The link after event `event`, counted from 1; 0 is the fresh link.
fn state(tree: &Tree, events: &[Event], event: usize) -> Vec<String> {
    let all = events.len();
    if event > all {
        return vec![format!("The run has {all} events; there is no event {event}.")];
    }
    let (link, line) = link_after(tree, &events[..event]);
    let totals::Total { packets, bytes } = link.totals[ROOT];
    let size = if tree.rule == ACTIVE_CLASSES { format!(", size in force {}", link.in_force) } else { String::new() };
    let mut lines = wrapped(&format!("After event {event} of {all}: {line}"), "  ");
    let moment = format!("Q {}{size}, place {}; waiting: packets {packets}, charged bytes {bytes}", link.size, link.place);
    lines.extend(wrapped(&moment, "  "));
    lines.push(String::new());
    let sum = link.total();
    lines.extend(classes_shown(&link));
    lines.extend([String::new(), format!("All balances and residuals: {sum}.")]);
    lines
}

#[cfg(test)]
mod tests {
    use super::*;

    /// The answer to words on an input.
    fn asked_of(words: &[&str], input: &[u8]) -> Vec<String> {
        answer(&words.iter().map(|word| word.to_string()).collect::<Vec<String>>(), input)
    }

    #[test]
    fn the_listing_after_its_first_send() {
        let lines = asked_of(&["state", "5"], include_bytes!("tree_p.bin"));
        assert_eq!(lines[0..2], ["After event 5 of 9: out 4 10 4 1 84", "Q 262, place 4; waiting: packets 3, charged bytes 252"]);
        assert_eq!(lines[4], "0 root                       87        64  yes           3    252");
        assert_eq!(lines[7], "│   └── 3 leaf       2       74            yes           2    168     84");
    }

    #[test]
    fn fresh_last_and_none() {
        let input = include_bytes!("tree_p.bin");
        assert_eq!(asked_of(&["state", "0"], input)[0], "After event 0 of 9: link 4 262");
        assert_eq!(asked_of(&["state", "-"], input), asked_of(&["state", "9"], input));
        assert_eq!(asked_of(&["state", "10"], input), ["The run has 9 events; there is no event 10."]);
        assert_eq!(asked_of(&["worked", "10", "-"], input), ["The run has 9 events; none from 10 to 9."]);
    }

    #[test]
    fn refused() {
        assert_eq!(asked_of(&["state", "-"], &[0]), ["stop 9 0"]);
        assert_eq!(asked_of(&["worked", "-", "-"], &include_bytes!("tree_p.bin")[..60]).last().unwrap(), "stop 1 55");
    }

    /// Every row of docs/by-hand.md's tables of the listing stands in the worked run too, cell by cell.
    #[test]
    fn worked_as_the_page() {
        let input = include_bytes!("tree_p.bin");
        let screen = asked_of(&["worked", "-", "-"], input).join("\n").split_whitespace().collect::<Vec<&str>>().join(" ");
        for row in super::super::by_hand::tables(input, 1, 1).iter().filter(|line| line.starts_with("| leaf")) {
            let cells = row.replace('|', " ").split_whitespace().collect::<Vec<&str>>().join(" ");
            assert!(screen.contains(&cells), "the worked run lacks {cells}");
        }
    }
}
