//! Completion for bash, from the commands' usages: what may stand in each place behind a command, and its options.
use crate::commands::{self, frame, line, radio, store};
use crate::flags::FLAGS;

pub fn bash_completion() -> String {
    let topics = format!("{} store", joined(commands::commands().map(|c| c.name)));
    let numbers: Vec<String> = kusikhut::answers().iter().map(|row| row.number.to_string()).collect();
    let mut script = String::from(BEGINNING);
    script += &format!("        ,-* | [!,]*,--*) choices='{}' ;;\n", joined(FLAGS.map(|(flag, _)| flag)));
    script += &format!("        ,*) choices='{topics} help' files=yes ;;\n");
    script += &format!("        help,[0-9]*) choices='{}' ;;\n", numbers.join(" "));
    script += &format!("        help,*) choices='{topics} all rules' ;;\n");
    script += &stores();
    script.extend(commands::commands().map(|c| command(c.name, c.usage)));
    script + END
}

/// The words that stand first where they are one of a few, and the options, which stand anywhere.
fn command(name: &str, usage: &'static str) -> String {
    let firsts: Vec<&str> = usage.split(" | ").filter_map(|form| form.split(' ').next()).collect();
    let first = match firsts[..] {
        [word] => one_of(word).unwrap_or_default(),
        // the usage has forms: each begins with a word to be typed, or is an option
        _ => joined(firsts.into_iter().filter(|word| !word.contains('='))),
    };
    let options = joined(usage.split(' ').filter_map(option));
    match (first.is_empty(), options.is_empty()) {
        (true, true) => String::new(),
        (true, false) => format!("        {name},*) choices='{options}' ;;\n"),
        _ => format!("        {name},*) case $place in 1) choices='{first}' ;; *) choices='{options}' ;; esac ;;\n"),
    }
}

/// `store FILE COMMAND ..`: what stands behind its command is the command's own matter.
fn stores() -> String {
    let mut arms = format!("            1,*) files=yes ;;\n            2,*) choices='{}' ;;\n", joined(store::names()));
    for entry in store::entries() {
        let name = entry.name.rsplit(' ').next().unwrap_or("");
        for (before, word) in entry.usage.split(' ').enumerate().skip(3) {
            let does = match (one_of(word), word) {
                (Some(choices), _) => format!("choices='{choices}'"),
                (None, "TO" | "BACKUP") => "files=yes".into(),
                (None, _) => continue,
            };
            arms += &format!("            {before},{name}) {does} ;;\n");
        }
    }
    format!("        store,*) case $place,$second in\n{arms}        esac ;;\n")
}

/// What a word of a usage stands for, where that is one of a few.
fn one_of(word: &str) -> Option<String> {
    match word {
        "FORMAT" => Some(joined(frame::FORMATS.map(|(name, _)| name))),
        "CODE" => Some(joined(line::CODES.map(|(name, _)| name))),
        "KIND" => Some(joined(radio::KINDS.map(|(name, _)| name))),
        "MODE" => Some(joined(store::MODES.map(|(name, _)| name))),
        "LETTER" => Some("A B C D".into()),
        _ => None,
    }
}

/// An option of a usage, as far as it can be typed: `[room=255]` is `room=`, `[show=lent]` all of it.
fn option(word: &'static str) -> Option<&'static str> {
    let word = word.trim_matches(['[', ']']);
    let (name, _) = word.split_once('=')?;
    Some(if name == "show" { word } else { &word[..=name.len()] })
}

fn joined<'a>(words: impl IntoIterator<Item = &'a str>) -> String {
    words.into_iter().collect::<Vec<_>>().join(" ")
}

const BEGINNING: &str = r#"# bash completion for kusikhut
_kusikhut() {
    local words=() last=-1 piece glued='' word command='' second='' place=0 given=' ' choices='' files='' choice i
    local IFS=$' \t\n'
    # bash breaks words at = and :, the program does not: they are put together again
    for ((i = 1; i <= COMP_CWORD; i++)); do
        piece=${COMP_WORDS[i]}
        if [[ $last -ge 0 && ($piece == [=:]* || -n $glued) ]]; then
            words[last]+=$piece
        else
            words[++last]=$piece
        fi
        glued=''
        [[ $piece != *[=:] ]] || glued=yes
    done
    # the command is the first word that is no flag, or stands behind picture; options are not counted behind it
    for ((i = 0; i < last; i++)); do
        word=${words[i]}
        case $command,$word in
            *,--* | *,-[hV]) ;;
            ,* | picture,*) command=$word ;;
            store,*) ((++place != 2)) || second=$word ;;
            *=*) given+="${word%%=*}= " ;;
            *) ((++place)) ;;
        esac
    done
    ((++place))
    word=${words[last]}
    case $command,$word in
"#;

const END: &str = r#"    esac
    COMPREPLY=()
    for choice in $choices; do
        # an option stands once
        [[ $choice != "$word"* || $given == *" ${choice%%=*}= "* ]] || COMPREPLY+=("$choice")
    done
    if [[ $word == *=* && $COMP_WORDBREAKS == *=* ]]; then
        # what stands before the = is another word to bash, and stays
        COMPREPLY=("${COMPREPLY[@]#*=}")
    elif [[ ${#COMPREPLY[@]} -eq 1 && ${COMPREPLY[0]} == *= ]]; then
        # the value belongs right behind the =
        compopt -o nospace 2>/dev/null
    fi
    # with no choice bash itself completes names of files, but where none belongs
    [[ -n $files ]] || compopt +o default 2>/dev/null
    return 0
}
complete -o default -F _kusikhut kusikhut
"#;

#[cfg(test)]
mod tests {
    use super::*;

    /// The modes are those that the store's own help names.
    #[test]
    fn modes_are_the_stores() {
        let add = store::entries().find(|e| e.name.ends_with(" add")).expect("there is one");
        let listed = one_of("MODE").expect("they are few").replace(' ', ", ").replace(", F", " or F");
        assert!(add.more.contains(&format!("MODE is {listed}.")), "{listed}");
    }

    /// The letters are those of the bands, and no other.
    #[test]
    fn letters_are_the_bands() {
        let listed = one_of("LETTER").expect("they are few");
        let bands: Vec<String> =
            ('A'..='Z').map(String::from).filter(|b| kusikhut::band_line(b.as_bytes(), 0).is_ok()).collect();
        assert_eq!(listed, bands.join(" "));
    }

    #[test]
    fn options_as_they_are_typed() {
        assert_eq!(option("[room=255]"), Some("room="));
        assert_eq!(option("[show=lent]"), Some("show=lent"));
        assert_eq!(option("received=BYTES"), Some("received="));
        assert_eq!(option("FORMAT"), None);
    }
}
