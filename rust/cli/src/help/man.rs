//! The man page, in the macros of man(7).
use super::{answers, entries, version, RULES};
use crate::commands::{store, Entry};
use crate::flags::FLAGS;

/// Lines are neither filled out to the margin nor hyphenated: names of files and calls stay whole.
const BEGINNING: &str = r".nh
.ad l
.SH NAME
kusikhut \- wireless M\-Bus frames (EN 13757\-4:2019), read and written by a proved library
.SH SYNOPSIS
\fBkusikhut\fR [\fIFLAG\fR ..] \fICOMMAND\fR \fIARGUMENT\fR ..
.br
\fBkusikhut\fR [\fIFLAG\fR ..] [\fIFILE\fR | \-]
.SH DESCRIPTION
One command from the arguments, or one a line from a file or standard input; an answer for each.
";

const HELP: (&str, &str) = (
    "help [COMMAND | all | rules | NUMBER]",
    "help on a command, on all of them, on what holds for all, or on an answer's number",
);

const SEE_ALSO: &str = r".SH SEE ALSO
C programs include kusikhut.h, which says what there is to call;
.B pkg\-config \-\-cflags \-\-libs kusikhut
says how they are compiled and linked.
The sources have README.md, and docs/RULES.md with every rule and limit.
";

pub fn man_page() -> String {
    let mut page = format!(".TH KUSIKHUT 1 \"\" \"{}\" \"Wireless M\\-Bus\"\n{BEGINNING}", plain(version().trim()));
    let [rules @ .., status] = RULES;
    for rule in rules {
        page += &format!(".PP\n{}\n", plain(rule));
    }
    page += &format!(".SH EXIT STATUS\n{}\n.SH FLAGS\n", plain(status));
    for (flag, does) in FLAGS {
        page += &tagged(flag, does);
    }
    page += ".SH COMMANDS\n";
    page.extend(entries().filter(|e| !e.name.starts_with("store")).map(|e| described(&e)));
    page += &tagged(HELP.0, HELP.1);
    page += &format!(".SH STORES\n{}\n", plain(store::ABOUT));
    page.extend(store::entries().map(|e| described(&e)));
    page += ".SH ANSWERS\n";
    for row in kusikhut::answers() {
        page += &tagged(&format!("{} {}", row.number, row.name), &answers::said_of(*row));
    }
    page + SEE_ALSO
}

fn tagged(tag: &str, text: &str) -> String {
    format!(".TP\n\\fB{}\\fR\n{}\n", plain(tag), plain(text))
}

/// What a command does, what is to be known besides, and an example on a line of its own that is never broken: half of
/// it, copied, would be another command.
fn described(e: &Entry) -> String {
    let more = if e.more.is_empty() { String::new() } else { format!(".br\n{}\n", plain(e.more)) };
    format!("{}{more}.nf\n$ kusikhut {}\n.fi\n", tagged(&e.usage, e.does), plain(&e.example))
}

/// Words on one line, with nothing in them that the formatter would obey.
fn plain(text: &str) -> String {
    let words: Vec<&str> = text.split_whitespace().collect();
    let escaped: String = words.join(" ").chars().map(escaped).collect();
    if escaped.starts_with(['.', '\'']) {
        format!("\\&{escaped}")
    } else {
        escaped
    }
}

/// A character as itself: some would come out as others that look nicer, and cannot be typed.
fn escaped(c: char) -> String {
    match c {
        '\\' => "\\e".into(),
        '-' => "\\-".into(),
        '^' => "\\(ha".into(),
        '~' => "\\(ti".into(),
        '`' => "\\(ga".into(),
        c if c.is_ascii() => c.into(),
        c => format!("\\[u{:04X}]", u32::from(c)),
    }
}

#[cfg(test)]
mod tests {
    use super::*;

    #[test]
    fn nothing_is_obeyed() {
        assert_eq!(plain(".so  file"), "\\&.so file");
        assert_eq!(plain("'tis"), "\\&'tis");
        assert_eq!(plain("a\\fB -x ~^`\n.B ü"), "a\\efB \\-x \\(ti\\(ha\\(ga .B \\[u00FC]");
    }

    /// The last of the rules is the one on the exit status, which has a section of its own.
    #[test]
    fn exit_status_is_told() {
        let page = man_page();
        assert!(page.contains(".SH EXIT STATUS\nThe exit status is 0 "));
        assert!(entries().all(|e| page.contains(&format!(".nf\n$ kusikhut {}\n.fi\n", plain(&e.example)))));
    }
}
