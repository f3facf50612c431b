//! The manual, as `man` reads it. Made from the words of [`crate::help`]; host/share/chelbugan.1 is it, and a test holds it to this.

use crate::help::{Command, Flag, COMMANDS, FLAGS, INPUTS, STATUS};

const HEAD: &str = "\
.\\\" Made by `chelbugan help man`.
.TH CHELBUGAN 1 \"\" Chelbugan \"User Commands\"
.SH NAME
chelbugan \\- says yes or no to a WebAssembly add-on before the add-on may run
.SH SYNOPSIS
";

const ABOUT: &str = "\
.SH DESCRIPTION
A type section lists the types that an add-on declares; a body is the code of one of its functions. The program asks the proved \
loader, libchelbugan, about either, and explains the answer.
";

const TAIL: &str = "\
.SH ENVIRONMENT
.TP
.B NO_COLOR
Where it is set and not empty, nothing is written in colour. Colour is for a terminal alone, and not for one that TERM calls dumb.
.SH SEE ALSO
chelbugan explain, for each refusal and each trap; chelbugan.h and chelbugan_host.h, for a host in C.
";

pub fn page() -> String {
    let uses = COMMANDS.iter().flat_map(|command| command.uses);
    let uses: String = uses.map(|one| format!(".B chelbugan\n{}\n.br\n", plain(one))).collect();
    let commands: String = COMMANDS.iter().map(of_command).collect();
    let flags: String = FLAGS.iter().map(of_flag).collect();
    format!(
        "{HEAD}{uses}{}.SH COMMANDS\n{commands}.SH OPTIONS\n{flags}.SH INPUTS\n{}\n.SH EXIT STATUS\n{}\n{}",
        ABOUT,
        plain(INPUTS),
        plain(STATUS.trim_start_matches("exit status: ")),
        TAIL
    )
}

fn of_command(command: &Command) -> String {
    let uses: Vec<String> =
        command.uses.iter().map(|one| format!("\\fB{}\\fR", plain(one))).collect();
    format!(
        ".TP\n{}\n{}.\n{}\n",
        uses.join(", "),
        capital(&plain(command.does)),
        plain(command.page)
    )
}

fn of_flag(flag: &Flag) -> String {
    let value = flag.value.map_or(String::new(), |value| format!(" {value}"));
    let short =
        flag.short.map_or(String::new(), |short| format!("\\fB{}\\fR{value}, ", plain(short)));
    let of = match flag.commands {
        None => String::new(),
        Some(commands) => format!(" With {}.", commands.join(", ")),
    };
    let does = capital(&plain(flag.does));
    format!(".TP\n{short}\\fB{}\\fR{value}\n{does}.{of}\n", plain(flag.name))
}

fn capital(words: &str) -> String {
    let mut characters = words.chars();
    let first = characters.next().map_or(String::new(), |first| first.to_uppercase().to_string());
    first + characters.as_str()
}

/// Words as they are: a dash can be typed as it is shown, and a line that begins with a dot or a quote is no request.
fn plain(words: &str) -> String {
    let words = words.replace('\\', "\\e").replace('-', "\\-");
    let lines = words.lines().map(|line| match line.starts_with(['.', '\'']) {
        true => format!("\\&{line}"),
        false => line.to_string(),
    });
    lines.collect::<Vec<_>>().join("\n")
}

#[cfg(test)]
mod tests {
    use super::*;

    #[test]
    fn the_file_is_made_here() {
        let file = concat!(env!("CARGO_MANIFEST_DIR"), "/share/chelbugan.1");
        let there = std::fs::read_to_string(file).expect("the manual's file");
        assert!(there == page(), "write it again: chelbugan help man > host/share/chelbugan.1");
    }

    #[test]
    fn every_command_and_every_option_is_in_it() {
        let page = page().replace("\\-", "-");
        for one in COMMANDS.iter().flat_map(|command| command.uses) {
            assert!(page.contains(&format!("\\fB{one}\\fR")), "{one}");
        }
        for flag in FLAGS {
            assert!(page.contains(&format!("\\fB{}\\fR", flag.name)), "{}", flag.name);
        }
    }
}
