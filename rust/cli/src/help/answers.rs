//! What there is to say of an answer: its row on the page, and the fields that the program adds where it can.
use super::paragraph;
use crate::notation::number_to;
use crate::numbers;
use kusikhut::Answer;

/// The fields behind a refusal that are the program's own words, found by further calls of the library.
const BESIDES: [(u8, &str); 10] = [
    (
        numbers::TOO_SHORT,
        "missing-bytes= or missing-chips=, how many; missing-bytes-at-least= or missing-chips-at-least= where no length \
         byte tells how many more; in=, of which argument.",
    ),
    (numbers::LENGTH_NOT_ALLOWED, "l=, the length byte; in=, of which argument."),
    (numbers::NO_ROOM, "room=, the bytes that were lent; needs=, the bytes of the result."),
    (numbers::CONTENT_LENGTH_NOT_ALLOWED, "given=, the bytes of the content; least= and most=, how many there may be."),
    (numbers::NO_SUCH_PLACE, "given=, the place; n=, the bytes of the content, which are counted from 0."),
    (numbers::OUT_OF_RANGE, "argument=, which one; given=, what it is; limit=, the most that it may be."),
    (numbers::UNKNOWN_CI, "ci=, the body's first byte."),
    (numbers::BODY_TOO_SHORT, "missing-bytes=, how many; missing-bytes-at-least= where no CI tells how many more."),
    (numbers::NO_SUCH_CHANNEL, "index=, and channels=, how many it has, from 0 on."),
    (numbers::TOO_LONG_FOR_CORRECTION, "given=, the bytes of frame or word; limit=, the most; in=, of which argument."),
];

/// The answer with this number, or with this name.
pub fn asked_for(topic: &str) -> Option<Answer> {
    let by_number = number_to(topic, u8::MAX.into()).ok().and_then(|number| kusikhut::answer(number as u8));
    by_number.or_else(|| kusikhut::answers().iter().find(|answer| answer.name == topic).copied())
}

pub fn on(answer: Answer) -> String {
    let value = answer.value.map_or(String::new(), |value| format!(" {value}=.."));
    format!("{} {}{value}\n{}\n", answer.number, answer.name, paragraph(&said_of(answer), 4))
}

/// When it is given, and which fields may stand behind it.
pub fn said_of(answer: Answer) -> String {
    let besides = match BESIDES.iter().find(|&&(number, _)| number == answer.number) {
        Some((_, fields)) => format!(". Behind it may stand {fields}"),
        None if answer.number == 0 => ". Here help COMMAND names them.".into(),
        None => String::new(),
    };
    unticked(answer.meaning) + &besides
}

/// A text of the page without the marks that set code apart there.
fn unticked(text: &str) -> String {
    text.replace('`', "")
}

#[cfg(test)]
mod tests {
    use super::*;
    use crate::commands;
    use crate::words::{of_line, Line};

    /// Every field of a refusal is spoken of in its help.
    #[test]
    fn fields_are_spoken_of() {
        let frame = "0F44AE0C7856341201074447780B134365871E6D";
        let room = format!("read A {frame} room=1");
        let place = format!("change A {frame} 15 00");
        let entries = format!("filter 44+8*00{}", " 0000000000000000".repeat(17));
        let lines = format!(
            "receive 543D/read A 0F/read A -/mend A 0F/mend A -/read A 09/mend A 09/{room}/write A 00/filter 00/{place}/\
             update FFFF 00 01 126/search 00 start=9/{entries}/header 00/header 8C/header -/channel 5 1/\
             check-bytes +224*00/mend A FF+330*00/search 0000/receive 543D54CC"
        );
        for line in lines.split('/') {
            let Line::Words(words) = of_line(line.as_bytes()) else { panic!("{line}") };
            let reply = commands::run(&words).unwrap_or_else(|why| panic!("{line}: {why}"));
            assert_ne!(reply.number, 0, "{line}");
            let help = on(kusikhut::answer(reply.number).expect("it is an answer"));
            let words: Vec<&str> = help.split(|c: char| !c.is_ascii_lowercase() && c != '-' && c != '=').collect();
            for (name, _) in &reply.fields.0 {
                assert!(words.contains(&format!("{name}=").as_str()), "{line}: {name}= is not in: {help}");
            }
        }
    }

    #[test]
    fn by_number_or_by_name() {
        let number = |topic| asked_for(topic).map(|answer| answer.number);
        assert_eq!(["3", "0x0A", "too-short"].map(number), [Some(3), Some(10), Some(1)]);
        assert_eq!(["15", "+3", "Too-Short", ""].map(number), [None; 4]);
    }
}
