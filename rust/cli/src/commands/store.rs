//! The settings store in a file: `store FILE COMMAND ..`. Each command opens the file, makes one call and ends; what it
//! prints is on the disk before.
use super::address;
use super::frame::FORMATS;
use super::Entry;
use crate::args::Args;
use crate::fault::Fault;
use crate::reply::{Fields, Reply};
use crate::words::Word;
use kusikhut::{Format, Meter, Mode, Restored, Settings, Store, StoreFault, StoreFile};
use std::io;
use std::path::Path;

#[derive(Clone, Copy)]
struct StoreCommand {
    name: &'static str,
    usage: &'static str,
    does: &'static str,
    more: &'static str,
    example: &'static str,
    run: fn(&Path, Args) -> Result<Reply, Fault>,
}

/// In the order in which `help` shows them.
const COMMANDS: [StoreCommand; 9] = [
    StoreCommand {
        name: "new",
        usage: "",
        does: "make a store without meters",
        more: "In a new file; one that is there stays.",
        example: "new",
        run: new,
    },
    StoreCommand {
        name: "show",
        usage: "",
        does: "all that a store holds",
        more: "A line for each meter, with what its name says (help read).",
        example: "show",
        run: show,
    },
    StoreCommand {
        name: "add",
        usage: "METER MODE FORMAT",
        does: "add a meter, or set its mode and format",
        more: "One that is new is unsure and at number 0. MODE is R, S, T, C, N or F.",
        example: "add AE0C785634120107 T A",
        run: add,
    },
    StoreCommand {
        name: "hear",
        usage: "METER NUMBER",
        does: "a number was heard from a meter",
        more: "The meter is sure then, and keeps the larger number.",
        example: "hear AE0C785634120107 1000",
        run: hear,
    },
    StoreCommand {
        name: "issue",
        usage: "METER",
        does: "the next number for a meter",
        more: "It is saved before it is printed.",
        example: "issue AE0C785634120107",
        run: issue,
    },
    StoreCommand {
        name: "look-up",
        usage: "METER",
        does: "what is held of a meter",
        more: "",
        example: "look-up AE0C785634120107",
        run: look_up,
    },
    StoreCommand {
        name: "allowance",
        usage: "[NUMBER]",
        does: "show the position allowance, or set it",
        more: "",
        example: "allowance 20000",
        run: allowance,
    },
    StoreCommand {
        name: "backup",
        usage: "TO",
        does: "write a backup",
        more: "To a new file; one that is there stays.",
        example: "backup monday.backup",
        run: backup,
    },
    StoreCommand {
        name: "restore",
        usage: "BACKUP",
        does: "bring a backup into a store",
        more: "No number is turned back; what= says what became of each meter.",
        example: "restore monday.backup",
        run: restore,
    },
];

pub const MODES: [(&str, Mode); 6] =
    [("R", Mode::R), ("S", Mode::S), ("T", Mode::T), ("C", Mode::C), ("N", Mode::N), ("F", Mode::F)];

/// The largest session number, and the largest allowance.
const LARGEST: usize = u32::MAX as usize;

/// A file could not be read or written.
fn of_file(path: &Path, why: &io::Error) -> Fault {
    let why = match why.kind() {
        io::ErrorKind::NotFound => "there is no such file or folder".into(),
        io::ErrorKind::AlreadyExists => "a file is there already, and stays as it is".into(),
        _ => why.to_string(),
    };
    Fault::of_line(format!("{}: {why}", crate::notation::tame(&path.display().to_string())))
}

/// Runs `store FILE COMMAND ..`, given as one argument for each word.
pub fn run(words: &[Word]) -> Result<Reply, Fault> {
    let mut a = Args::plain(words);
    let (file, command) = chosen(&mut a).map_err(|why| why.in_command("store FILE COMMAND ..".into()))?;
    (command.run)(file, a).map_err(|why| why.in_command(usage(&command)))
}

fn chosen<'a>(a: &mut Args<'a>) -> Result<(&'a Path, StoreCommand), Fault> {
    Ok((a.path("FILE")?, a.choice("COMMAND", &COMMANDS.map(|c| (c.name, c)))?))
}

fn usage(command: &StoreCommand) -> String {
    format!("store FILE {} {}", command.name, command.usage).trim_end().into()
}

/// What `help` says of them all.
pub const ABOUT: &str = "Commands on a store work on a file and are taken from the arguments alone. FILE is a collector's own \
                         store and no backup; a number is saved in it before it is printed, and programs that change it \
                         wait for each other. METER is M and A as received, 8 bytes, as sender= shows them below an \
                         accepted frame.";

pub fn entries() -> impl Iterator<Item = Entry> {
    COMMANDS.into_iter().map(|c| Entry {
        name: format!("store FILE {}", c.name),
        usage: usage(&c),
        does: c.does,
        more: c.more,
        example: format!("store desk.store {}", c.example),
    })
}

/// The names of the commands behind `store FILE`.
pub fn names() -> impl Iterator<Item = &'static str> {
    COMMANDS.into_iter().map(|c| c.name)
}

/// What was accepted, told by `tell`, or why there is nothing to tell.
fn told<T>(path: &Path, answer: Result<T, StoreFault>, tell: impl FnOnce(Reply, T) -> Reply) -> Result<Reply, Fault> {
    match answer {
        Ok(value) => Ok(tell(Reply::accepted(), value)),
        Err(why) => failed(path, why),
    }
}

/// The refusal, or the fault of a file under the name that was given for it.
fn failed(path: &Path, why: StoreFault) -> Result<Reply, Fault> {
    match why {
        StoreFault::Refused(refusal) => Ok(Reply::refused(refusal)),
        StoreFault::File(why) => Err(of_file(path, &why)),
    }
}

fn new(file: &Path, a: Args) -> Result<Reply, Fault> {
    a.end()?;
    told(file, StoreFile::create(file), |reply, _| reply)
}

fn show(file: &Path, a: Args) -> Result<Reply, Fault> {
    a.end()?;
    told(file, StoreFile::open(file).and_then(|store| store.settings()), |reply, settings| {
        reply
            .with(|f| tell_settings(f, &settings))
            .list("held", &settings.meters, |meter| tell_meter(row_of(meter), meter))
    })
}

fn add(file: &Path, mut a: Args) -> Result<Reply, Fault> {
    let meter = a.fixed::<8>("METER")?;
    let (mode, format) = (a.choice("MODE", &MODES)?, a.choice("FORMAT", &FORMATS)?);
    a.end()?;
    told(file, StoreFile::open(file).and_then(|store| store.add(meter, mode, format)), |reply, ()| reply)
}

fn hear(file: &Path, mut a: Args) -> Result<Reply, Fault> {
    let (meter, number) = (a.fixed::<8>("METER")?, a.number_to("NUMBER", LARGEST)? as u32);
    a.end()?;
    told(file, StoreFile::open(file).and_then(|store| store.hear(meter, number)), |reply, ()| reply)
}

fn issue(file: &Path, mut a: Args) -> Result<Reply, Fault> {
    let meter = a.fixed::<8>("METER")?;
    a.end()?;
    let answer = StoreFile::open(file).and_then(|store| store.issue(meter));
    told(file, answer, |reply, number| reply.with(|f| f.number("number", number.into())))
}

fn look_up(file: &Path, mut a: Args) -> Result<Reply, Fault> {
    let meter = a.fixed::<8>("METER")?;
    a.end()?;
    let answer = StoreFile::open(file).and_then(|store| store.look_up(meter));
    told(file, answer, |reply, meter| reply.with(|f| tell_meter(f, &meter)))
}

fn allowance(file: &Path, mut a: Args) -> Result<Reply, Fault> {
    if !a.more() {
        let answer = StoreFile::open(file).and_then(|store| store.settings());
        return told(file, answer, |reply, settings| reply.with(|f| f.number("allowance", settings.allowance.into())));
    }
    let allowance = a.number_to("NUMBER", LARGEST)? as u32;
    a.end()?;
    told(file, StoreFile::open(file).and_then(|store| store.set_allowance(allowance)), |reply, ()| reply)
}

fn backup(file: &Path, mut a: Args) -> Result<Reply, Fault> {
    let to = a.path("TO")?;
    a.end()?;
    match StoreFile::open(file) {
        Ok(store) => told(to, store.back_up(to), |reply, ()| reply),
        Err(why) => failed(file, why),
    }
}

/// The store is judged before the backup; 17 and 18 say whose they are.
fn restore(file: &Path, mut a: Args) -> Result<Reply, Fault> {
    let backup = a.path("BACKUP")?;
    a.end()?;
    let store = match StoreFile::open(file) {
        Ok(store) => store,
        Err(why) => return failed(file, why).map(|reply| reply.with(|f| f.word("in", "FILE"))),
    };
    let bytes = kusikhut::read_store(backup).map_err(|why| of_file(backup, &why))?;
    let mut alone = Store::empty();
    if let Err(refusal) = alone.restore(&bytes) {
        return Ok(Reply::refused(refusal).with(|f| f.word("in", "BACKUP")));
    }
    told(file, store.restore(&bytes), |reply, restored| tell_restored(reply, &restored, &alone.settings()))
}

fn tell_settings(fields: Fields, settings: &Settings) -> Fields {
    fields.number("allowance", settings.allowance.into()).number("meters", settings.meters.len() as u64)
}

/// A row begins with the meter that it is about.
fn row_of(meter: &Meter) -> Fields {
    Fields::default().bytes("meter", &meter.address)
}

fn tell_meter(fields: Fields, meter: &Meter) -> Fields {
    let fields = address::name(fields, meter.address).word("mode", mode_name(meter.mode));
    let fields = fields.word("format", format_name(meter.format)).number("number", meter.number.into());
    fields.is("unsure", meter.unsure)
}

fn mode_name(mode: Mode) -> &'static str {
    MODES.iter().find(|&&(_, m)| m == mode).map_or("", |&(name, _)| name)
}

fn format_name(format: Format) -> &'static str {
    FORMATS.iter().find(|&&(_, f)| f == format).map_or("", |&(name, _)| name)
}

fn tell_restored(reply: Reply, restored: &Restored, backup: &Settings) -> Reply {
    let allowance_was = restored.before.allowance.into();
    let reply = reply.with(|f| tell_settings(f, &restored.after).number("allowance-was", allowance_was));
    reply.list("held", &restored.after.meters, |meter| {
        let what = what_changed(find(&restored.before, meter), find(backup, meter), meter);
        tell_meter(row_of(meter), meter).word("what", what)
    })
}

fn find<'a>(settings: &'a Settings, meter: &Meter) -> Option<&'a Meter> {
    settings.meters.iter().find(|held| held.address == meter.address)
}

/// What a restore made of a meter: what was held of it, what the backup has of it, what is held now.
fn what_changed(before: Option<&Meter>, backup: Option<&Meter>, after: &Meter) -> String {
    let (before, backup) = match (before, backup) {
        (None, _) => return "new".into(),
        (Some(_), None) => return "not-in-backup".into(),
        (Some(before), Some(backup)) => (before, backup),
    };
    let changes = [
        (after.number > before.number, format!("number-was-{}", before.number)),
        (backup.number < before.number, format!("number-kept-above-{}", backup.number)),
        (after.mode != before.mode, format!("mode-was-{}", mode_name(before.mode))),
        (after.format != before.format, format!("format-was-{}", format_name(before.format))),
    ];
    let what: Vec<String> = changes.into_iter().filter_map(|(holds, what)| holds.then_some(what)).collect();
    if what.is_empty() {
        "same".into()
    } else {
        what.join(",")
    }
}

#[cfg(test)]
mod tests {
    use super::*;

    /// The examples that `help` shows, one behind the other in an empty folder, are understood and accepted.
    #[test]
    fn examples_are_accepted() {
        let folder = std::env::temp_dir().join(format!("kusikhut-{}", std::process::id()));
        std::fs::create_dir_all(&folder).expect("it can be made");
        let here = |word: &str| match word.contains('.') {
            true => folder.join(word).display().to_string(),
            false => word.to_string(),
        };
        let answers = COMMANDS.map(|c| {
            let words: Vec<String> = format!("store desk.store {}", c.example).split(' ').map(here).collect();
            run(&crate::words::of_arguments(&words))
        });
        std::fs::remove_dir_all(&folder).expect("it is ours");
        for (answer, command) in answers.iter().zip(COMMANDS) {
            assert!(answer.as_ref().is_ok_and(Reply::all_accepted), "{}", command.example);
        }
    }
}
