// Runs the Rust of unplug on one input, or on one input a line. README.md in the folder above the
// glue lists the commands.
mod answers;
mod loading;
mod reading;

use answers::{bytes, hex};
use std::fs::File;
use std::io::{self, BufRead, Read, Write};
use std::os::fd::AsFd;
use std::panic::{AssertUnwindSafe, catch_unwind, set_hook};

/// The answer of a command that takes a slot.
fn on_slot(command: &str, slot: &[u8]) -> Option<String> {
    Some(match command {
        "key" => reading::key(slot, true),
        "raw" => reading::key(slot, false),
        "read" => reading::read(slot, false),
        "decode" => reading::read(slot, true),
        "chan1" => reading::channel(slot, 1),
        "chan2" => reading::channel(slot, 2),
        "past" => reading::past(slot),
        _ => return None,
    })
}

/// The answer to one line of `serve`. A panic of the Rust is an answer too.
fn on_line(line: &str) -> String {
    let (command, rest) = line.split_once(' ').unwrap_or((line, "-"));
    let run = AssertUnwindSafe(|| match command {
        "load" => {
            let (file, end) = loading::load(rest);
            format!("{} {}\n", end.err().unwrap_or("OK".into()), hex(&file))
        }
        _ => on_slot(command, &bytes(rest)).unwrap_or("unknown command\n".into()),
    });
    catch_unwind(run).unwrap_or_else(|panic| {
        let text = panic.downcast_ref::<String>().cloned();
        let text = text.or_else(|| panic.downcast_ref::<&str>().map(|s| s.to_string()));
        format!("PANIC {}\n", text.unwrap_or_default().replace('\n', " "))
    })
}

fn serve(mut out: impl Write) -> io::Result<()> {
    set_hook(Box::new(|_| {}));
    for line in io::stdin().lock().lines() {
        write!(out, "{}.\n", on_line(&line?))?;
        out.flush()?;
    }
    Ok(())
}

/// The samples of the channel that the second word names, to standard output. Its own buffer, which looks for the ends of lines, is passed by.
fn pcm(slot: &[u8], mut out: impl Write + AsFd) -> io::Result<()> {
    let channel = std::env::args().nth(2).and_then(|word| word.parse().ok()).unwrap_or(0);
    out.flush()?;
    let out = File::from(out.as_fd().try_clone_to_owned()?);
    if let Err(e) = reading::pcm(slot, channel, out) {
        eprintln!("STOP {}", answers::refusal(&e));
        std::process::exit(1);
    }
    Ok(())
}

fn main() -> io::Result<()> {
    let command = std::env::args().nth(1).unwrap_or_default();
    let mut out = io::stdout().lock();
    if command == "serve" {
        return serve(out);
    }
    let mut input = vec![];
    io::stdin().read_to_end(&mut input)?;
    if command == "load" {
        let (file, end) = loading::load(&String::from_utf8(input).expect("description"));
        out.write_all(&file)?;
        if let Err(e) = end {
            eprintln!("STOP {e}");
            std::process::exit(1);
        }
    } else if command == "pcm" {
        pcm(&input, out)?;
    } else if let Some(text) = on_slot(&command, &input) {
        out.write_all(text.as_bytes())?;
    } else {
        eprintln!("usage: oracle key|raw|read|decode|chan1|chan2|past|pcm CHANNEL|load|serve");
        std::process::exit(2);
    }
    Ok(())
}
