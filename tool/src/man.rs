//! The manual page in troff, made from the help texts.

use crate::args::COMMANDS;
use crate::help;

pub fn page() -> String {
    let version = env!("CARGO_PKG_VERSION");
    let (title, text) = parted(help::MAIN);
    let mut page = format!(".TH QSTORE 1 \"\" \"qstore {version}\"\n.SH NAME\n");
    page += &escaped(&title.replacen(": ", " - ", 1));
    page += ".SH SYNOPSIS\n.nf\n";
    COMMANDS.iter().for_each(|command| page += &escaped(parted(command.3).0));
    page += ".fi\n.SH DESCRIPTION\n";
    page += &body(text);
    page += ".SH COMMANDS\n";
    for (name, _, _, text) in COMMANDS {
        page += &format!(".SS {name}\n{}", body(parted(text).1));
    }
    page + ".SH SEE ALSO\n.BR qemu-img (1)\n"
}

/// The first line, and what follows.
fn parted(text: &str) -> (&str, &str) {
    text.split_once('\n').unwrap_or((text, ""))
}

/// Paragraphs are filled; lines with a space in front are kept as they are.
fn body(text: &str) -> String {
    let mut page = String::new();
    let mut kept = false;
    for line in text.trim_matches('\n').lines() {
        if line.is_empty() {
            page += if kept { ".fi\n.PP\n" } else { ".PP\n" };
            kept = false;
        } else {
            if line.starts_with(' ') && !kept {
                page += ".nf\n";
                kept = true;
            }
            page += &escaped(line);
        }
    }
    page + if kept { ".fi\n" } else { "" }
}

/// A line of text: its signs as they are, none of them a request.
fn escaped(line: &str) -> String {
    format!("\\&{}\n", line.replace('\\', "\\e").replace('-', "\\-"))
}

#[cfg(test)]
mod tests {
    use super::*;

    #[test]
    fn every_line_of_the_help_is_there() {
        let page = page();
        let texts = COMMANDS.map(|command| command.3);
        let lines = texts.iter().chain([&help::MAIN]).flat_map(|text| text.lines().skip(1));
        for line in lines.filter(|line| !line.is_empty()) {
            assert!(page.contains(&escaped(line)), "{line}");
        }
    }

    #[test]
    fn requests_are_only_ours() {
        assert_eq!(escaped(".TH a\\b --json"), "\\&.TH a\\eb \\-\\-json\n");
        assert_eq!(body("one\ntwo\n\n  three\n  four\n\nfive\n").matches(".nf").count(), 1);
        assert_eq!(page().matches(".nf\n").count(), page().matches(".fi\n").count());
    }
}
