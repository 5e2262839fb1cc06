//! A page's commands, and what the page says that each of them prints.
//!
//! Commands stand in blocks between a line "```console" and a line "```". A
//! line that begins with `$ ` is a command; the lines up to the next one, or
//! up to the end of the block, are its output.

/// A command as a page shows it.
#[derive(Clone, Debug, PartialEq, Eq)]
pub struct Command {
    /// The page's line on which it stands, from 1.
    pub line: usize,
    /// What stands after the `$ `.
    pub text: String,
    /// The lines below it: what it prints.
    pub output: Vec<String>,
}

/// What a line of a page is.
enum Line<'a> {
    /// Prose, or the beginning or the end of a block.
    Prose,
    /// A command.
    Command(&'a str),
    /// A line of the output of the command above.
    Output(&'a str),
}

/// What begins a command.
const PROMPT: &str = "$ ";

/// The commands of a page, in order; or what is wrong with its blocks.
pub fn commands(page: &str) -> Result<Vec<Command>, String> {
    let mut commands: Vec<Command> = Vec::new();
    for (index, line) in lines(page)?.into_iter().enumerate() {
        match line {
            Line::Prose => {}
            Line::Command(text) => commands.push(Command {
                line: index + 1,
                text: text.to_string(),
                output: Vec::new(),
            }),
            Line::Output(text) => {
                let command = commands.last_mut().expect("output stands below a command");
                command.output.push(text.to_string());
            }
        }
    }
    Ok(commands)
}

/// The page with other outputs, one for each of its commands.
pub fn with_outputs(page: &str, outputs: &[Vec<String>]) -> Result<String, String> {
    let mut renewed = String::new();
    let mut outputs = outputs.iter();
    for (kind, line) in lines(page)?.into_iter().zip(page.lines()) {
        let below = match kind {
            Line::Output(_) => continue,
            Line::Prose => None,
            Line::Command(_) => outputs.next(),
        };
        for line in std::iter::once(line).chain(below.into_iter().flatten().map(String::as_str)) {
            renewed.push_str(line);
            renewed.push('\n');
        }
    }
    Ok(renewed)
}

/// What each line of a page is.
fn lines(page: &str) -> Result<Vec<Line<'_>>, String> {
    let mut lines = Vec::new();
    let (mut inside, mut commanded) = (false, false);
    for (index, line) in page.lines().enumerate() {
        let fence = if inside { "```" } else { "```console" };
        let text = line.strip_prefix(PROMPT);
        if line == fence {
            (inside, commanded) = (!inside, false);
            lines.push(Line::Prose);
        } else if !inside {
            lines.push(Line::Prose);
        } else if let Some(text) = text {
            commanded = true;
            lines.push(Line::Command(text));
        } else if commanded {
            lines.push(Line::Output(line));
        } else {
            return Err(format!("line {}: a block begins with a command", index + 1));
        }
    }
    if inside {
        return Err("the last block has no end".to_string());
    }
    Ok(lines)
}
