//! The manual page: docs/MANUAL.md in the language of man pages. The part on
//! commands stands there as the table of commands has it.

use crate::command::Command;
use crate::commands::COMMANDS;

const SOURCE: &str = include_str!("../../docs/MANUAL.md");

/// The part on commands, in Markdown.
pub fn commands() -> String {
    COMMANDS.iter().map(section).collect::<Vec<String>>().join("\n")
}

fn section(command: &Command) -> String {
    let about = command.about.replace('\n', " ");
    let mut text = format!(
        "### {}\n\n{}.\n\n    {}\n\n{}\n\n",
        command.name,
        capital(command.purpose),
        command.usage(),
        about.trim()
    );
    for choice in command.options {
        let value = choice.value.map(|value| format!(" {value}")).unwrap_or_default();
        text += &format!("- `--{}{value}`: {}\n", choice.name, choice.purpose);
    }
    text.trim_end().to_string() + "\n"
}

fn capital(words: &str) -> String {
    let mut letters = words.chars();
    letters.next().map_or(String::new(), |first| first.to_uppercase().chain(letters).collect())
}

/// The page.
pub fn page() -> String {
    let version = env!("CARGO_PKG_VERSION");
    let mut text = format!(".TH PLUMANCHOR 1 \"\" \"plumanchor {version}\"\n");
    let mut is_code = false;
    for line in SOURCE.lines() {
        let code = line.strip_prefix("    ");
        if is_code && code.is_none() && !line.is_empty() {
            text += ".fi\n.RE\n";
            is_code = false;
        }
        match code {
            Some(code) if is_code => text += &format!("{}\n", escaped(code)),
            Some(code) => {
                text += &format!(".PP\n.RS 4\n.nf\n{}\n", escaped(code));
                is_code = true;
            }
            None => text += &prose(line, is_code),
        }
    }
    if is_code {
        text += ".fi\n.RE\n";
    }
    text
}

/// A line outside of code: a heading, an item, a row of a table, a paragraph.
fn prose(line: &str, is_code: bool) -> String {
    if let Some(heading) = line.strip_prefix("## ") {
        return format!(".SH {}\n", marked(&heading.to_uppercase()));
    }
    if let Some(heading) = line.strip_prefix("### ") {
        return format!(".SS {}\n", marked(heading));
    }
    if let Some(item) = line.strip_prefix("- ") {
        return format!(".IP \\(bu 2\n{}\n", marked(item));
    }
    if let Some(row) = line.strip_prefix("| ") {
        let cells: Vec<&str> = row.trim_end_matches(" |").split(" | ").collect();
        let (first, rest) = cells.split_first().unwrap_or((&"", &[]));
        return format!(".TP\n{}\n{}\n", marked(first), marked(&rest.join(" - ")));
    }
    match line {
        _ if line.starts_with("# ") || line.starts_with("|--") || line.starts_with("<!--") => {
            String::new()
        }
        "" if is_code => "\n".to_string(),
        "" => ".PP\n".to_string(),
        _ => format!("{}\n", marked(line)),
    }
}

fn escaped(text: &str) -> String {
    let text = text.replace('\\', "\\e").replace('-', "\\-");
    // A line that begins so would be a request.
    if text.starts_with(['.', '\'']) {
        format!("\\&{text}")
    } else {
        text
    }
}

/// Text with what stands in backquotes in bold.
fn marked(text: &str) -> String {
    let pieces = text.split('`').enumerate();
    let bold = |(at, piece): (usize, &str)| match at % 2 {
        0 => escaped(&linked(&piece.replace("**", "").replace('*', ""))),
        _ => format!("\\fB{}\\fP", escaped(piece)),
    };
    pieces.map(bold).collect()
}

/// Text with the words of its links alone.
fn linked(text: &str) -> String {
    let mut parts = text.split("](");
    let first = parts.next().unwrap_or_default().to_string();
    let linked =
        parts.fold(first, |told, part| told + part.split_once(')').map_or("", |rest| rest.1));
    linked.replace('[', "")
}
