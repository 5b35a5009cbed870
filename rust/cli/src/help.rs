//! Help and the man page, made from the table of subcommands.

use crate::arguments::Setting;
use crate::exit::Exit;
use crate::subcommand::{Subcommand, ALL};
use std::fmt::Write;

const ABOUT: &str = "layouts of parts sheets that are proved to be the best";
const USAGE: &str = "backbone SUBCOMMAND [OPTION]... [OPERAND]...";

/// What the command as a whole takes.
const SETTINGS: [Setting; 3] = [
    Setting { name: "--help", value: "", about: "this text; `backbone SUBCOMMAND --help` says more" },
    Setting { name: "--version", value: "", about: "the version" },
    Setting { name: "--man", value: "", about: "the man page, in roff" },
];

/// What every subcommand takes.
const HELP: Setting = Setting { name: "--help", value: "", about: "this text" };

/// The line of `--version`.
pub fn version() -> String {
    format!("backbone {}\n", env!("CARGO_PKG_VERSION"))
}

/// The text of `backbone --help`.
pub fn overview() -> String {
    let mut text = format!("backbone: {ABOUT}\n\nusage: {USAGE}\n\nsubcommands:\n");
    for subcommand in ALL {
        let _ = writeln!(text, "  {:<10}{}", subcommand.name, subcommand.about);
    }
    text + "\noptions:\n" + &options(&SETTINGS) + "\nexit codes:\n" + &exits(&Exit::MEANINGS)
}

/// The text of `backbone SUBCOMMAND --help`.
pub fn of(subcommand: &Subcommand) -> String {
    let Subcommand { name, about, text, settings, .. } = subcommand;
    let usage = usage(subcommand);
    format!("backbone {name}: {about}\n\nusage: {usage}\n\n{}\n\noptions:\n", paragraphs(text))
        + &options(settings)
        + &options(&[HELP])
        + "\nexit codes:\n"
        + &exits(subcommand.exits)
        + &exits(&Exit::MEANINGS[2..])
}

fn usage(subcommand: &Subcommand) -> String {
    format!("backbone {} [OPTION]... {}", subcommand.name, subcommand.operands)
}

/// The columns of help.
const WIDTH: usize = 100;

/// Paragraphs, with lines as long as help is wide; those with four blanks in front are shown as they are.
fn paragraphs(text: &str) -> String {
    let shown =
        |paragraph: &str| if paragraph.starts_with("    ") { paragraph.to_string() } else { wrapped(paragraph, 0) };
    text.split("\n\n").map(shown).collect::<Vec<_>>().join("\n\n")
}

/// Text in lines; all but the first begin with so many blanks.
fn wrapped(text: &str, indent: usize) -> String {
    let mut lines = vec![String::new()];
    for word in text.split_whitespace() {
        let line = lines.last().map_or(0, |line| line.chars().count());
        if line > 0 && indent + line + 1 + word.chars().count() > WIDTH {
            lines.push(String::new());
        }
        if let Some(line) = lines.last_mut() {
            line.push_str(if line.is_empty() { "" } else { " " });
            line.push_str(word);
        }
    }
    lines.join(&format!("\n{}", " ".repeat(indent)))
}

fn options(settings: &[Setting]) -> String {
    const INDENT: usize = 24;
    let line = |setting: &Setting| {
        let shown = format!("{} {}", setting.name, setting.value);
        format!("  {:<22}{}\n", shown.trim_end(), wrapped(setting.about, INDENT))
    };
    settings.iter().map(line).collect()
}

fn exits(meanings: &[(Exit, &str)]) -> String {
    meanings.iter().map(|(exit, meaning)| format!("  {}  {}\n", *exit as u8, wrapped(meaning, 5))).collect()
}

/// The man page.
pub fn man_page() -> String {
    let version = env!("CARGO_PKG_VERSION");
    let mut page = format!(".TH BACKBONE 1 \"\" \"backbone {version}\" \"User Commands\"\n");
    let _ = write!(page, ".SH NAME\nbackbone \\- {}\n.SH SYNOPSIS\n{}\n", roff(ABOUT), roff(USAGE));
    page.push_str(".SH OPTIONS\n");
    page.push_str(&man_options(&SETTINGS));
    page.push_str(".SH SUBCOMMANDS\n");
    for subcommand in ALL {
        let _ = write!(page, ".SS {}\n{}\n.PP\n", roff(&usage(subcommand)), roff(&sentence(subcommand.about)));
        page.push_str(&man_text(subcommand.text));
        page.push_str(&man_options(subcommand.settings));
        page.push_str(&man_exits(subcommand.exits));
    }
    page.push_str(".SH EXIT STATUS\n");
    page + &man_exits(&Exit::MEANINGS)
}

fn sentence(about: &str) -> String {
    let mut letters = about.chars();
    letters.next().map_or_else(String::new, |first| first.to_uppercase().collect::<String>() + letters.as_str() + ".")
}

fn man_options(settings: &[Setting]) -> String {
    let item = |setting: &Setting| {
        let (name, value, about) = (roff(setting.name), roff(setting.value), roff(setting.about));
        format!(".TP\n\\fB{name}\\fR \\fI{value}\\fR\n{about}\n").replace(" \\fI\\fR", "")
    };
    settings.iter().map(item).collect()
}

fn man_exits(meanings: &[(Exit, &str)]) -> String {
    let item = |(exit, meaning): &(Exit, &str)| format!(".TP\nexit {}\n{}\n", *exit as u8, roff(meaning));
    meanings.iter().map(item).collect()
}

/// Paragraphs; those with four blanks in front are shown as they are.
fn man_text(text: &str) -> String {
    let paragraph = |paragraph: &str| {
        if paragraph.starts_with("    ") {
            format!(".PP\n.nf\n{}\n.fi\n", roff(paragraph))
        } else {
            format!(".PP\n{}\n", roff(paragraph))
        }
    };
    text.split("\n\n").map(paragraph).collect()
}

/// Text in which roff sees no request of its own.
fn roff(text: &str) -> String {
    let escaped = text.replace('\\', "\\e").replace('-', "\\-");
    let line = |line: &str| if line.starts_with(['.', '\'']) { format!("\\&{line}") } else { line.to_string() };
    escaped.split('\n').map(line).collect::<Vec<_>>().join("\n")
}

#[cfg(test)]
mod tests {
    use super::*;

    #[test]
    fn roff_sees_no_requests() {
        assert_eq!(roff(".fi\n'b\na\\n - \u{e9}"), "\\&.fi\n\\&'b\na\\en \\- \u{e9}");
    }

    #[test]
    fn lines_are_as_long_as_help_is_wide() {
        let words = "word ".repeat(50);
        let lines: Vec<String> = wrapped(&words, 7).lines().map(str::to_string).collect();
        assert!(lines.iter().skip(1).all(|line| line.starts_with("       word") && line.len() <= WIDTH));
        assert_eq!(lines.iter().map(|line| line.trim()).collect::<Vec<_>>().join(" "), words.trim());
        assert_eq!(paragraphs("a\nb\n\n    c\n    d"), "a b\n\n    c\n    d");
    }

    /// Every word of help stands in the man page.
    #[test]
    fn the_man_page_says_what_help_says() {
        let page = man_page().replace("\\-", "-").replace("\\e", "\\").replace("\\&", "");
        for subcommand in ALL {
            let texts = subcommand.settings.iter().map(|setting| setting.about);
            let texts = texts.chain(subcommand.exits.iter().map(|(_, meaning)| *meaning)).chain([subcommand.text]);
            for line in texts.flat_map(str::lines) {
                assert!(page.contains(line), "{line}");
            }
        }
    }
}
