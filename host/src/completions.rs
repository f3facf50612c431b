//! What a shell offers while a call is typed: commands, options and the words that a command takes. Made from the lists of
//! [`crate::help`]; the files of host/share are these, and a test holds them to it.

use crate::explain::refusals;
use crate::help::{Command, Flag, COMMANDS, FLAGS};

pub const SHELLS: [&str; 3] = ["bash", "zsh", "fish"];

pub fn of(shell: &str) -> String {
    match shell {
        "bash" => bash(),
        "zsh" => zsh(),
        _ => fish(),
    }
}

/// The words that may come first after a command, where it is no file.
fn words(command: &Command) -> Vec<String> {
    match command.name {
        "dump" | "print" | "assemble" => vec!["section".to_string(), "body".to_string()],
        "explain" => {
            let numbers = refusals::ENTRIES.iter().map(|entry| entry.number.to_string());
            ["accepted".to_string()].into_iter().chain(numbers).collect()
        }
        "help" => {
            let commands = COMMANDS.iter().map(|command| command.name);
            commands.chain(["man"]).chain(SHELLS).map(String::from).collect()
        }
        _ => Vec::new(),
    }
}

/// Whether what else follows is a file.
fn takes_files(command: &Command) -> bool {
    !matches!(command.name, "explain" | "lines" | "help")
}

fn flags_of(command: &Command) -> impl Iterator<Item = &'static Flag> + '_ {
    FLAGS.iter().filter(|flag| flag.is_of(command.name))
}

/// Each way to write it.
fn spellings(flag: &Flag) -> Vec<&'static str> {
    flag.short.into_iter().chain([flag.name]).collect()
}

fn names() -> Vec<&'static str> {
    COMMANDS.iter().map(|command| command.name).collect()
}

fn of_every_command() -> Vec<&'static str> {
    FLAGS.iter().filter(|flag| flag.commands.is_none()).flat_map(spellings).collect()
}

const BASH: &str = "\
# bash completion for chelbugan, made by `chelbugan help bash`.
_chelbugan() {
    local word=${COMP_WORDS[COMP_CWORD]} before=${COMP_WORDS[COMP_CWORD - 1]} command= place=0 options= words= at
    for ((at = 1; at < COMP_CWORD; at++)); do
        case ${COMP_WORDS[at]} in
        VALUED) ((at++)) ;;
        -?*) ;;
        *) if [ -z \"$command\" ]; then command=${COMP_WORDS[at]}; else ((place++)); fi ;;
        esac
    done
    COMPREPLY=()
    case $before in VALUED) return ;; esac
    case $command in
CASES    esac
    case $word in
    -*) words=$options ;;
    *) [ \"$place\" -eq 0 ] || words= ;;
    esac
    mapfile -t COMPREPLY < <(compgen -W \"$words\" -- \"$word\")
}
# Where nothing is offered, the names of files are.
complete -o bashdefault -o default -F _chelbugan chelbugan
";

fn bash() -> String {
    let valued: Vec<&str> =
        FLAGS.iter().filter(|flag| flag.value.is_some()).flat_map(spellings).collect();
    let case = |name: &str, options: &[&str], words: &[String]| {
        let (options, words) = (options.join(" "), words.join(" "));
        format!("    {name}) options='{options}' words='{words}' ;;\n")
    };
    let all: Vec<String> = names().iter().map(|name| name.to_string()).collect();
    let mut cases = case("''", &of_every_command(), &all);
    for command in COMMANDS {
        let options: Vec<&str> = flags_of(command).flat_map(spellings).collect();
        cases += &case(command.name, &options, &words(command));
    }
    BASH.replace("VALUED", &valued.join(" | ")).replace("CASES", &cases)
}

/// Between single quotes, for bash and zsh.
fn quoted(text: &str) -> String {
    format!("'{}'", text.replace('\'', "'\\''"))
}

const ZSH: &str = "\
#compdef chelbugan
# zsh completion for chelbugan, made by `chelbugan help zsh`.
_chelbugan() {
    local curcontext=$curcontext state line
    typeset -A opt_args
    local -a commands=(
COMMANDS    )
    _arguments -C EVERY '1: :->command' '*:: :->argument'
    case $state in
    command) _describe command commands ;;
    argument)
        case $line[1] in
CASES        esac
        ;;
    esac
}
_chelbugan \"$@\"
";

fn zsh() -> String {
    let commands: String = COMMANDS
        .iter()
        .map(|command| {
            format!("        {}\n", quoted(&format!("{}:{}", command.name, command.does)))
        })
        .collect();
    let every: Vec<String> =
        FLAGS.iter().filter(|flag| flag.commands.is_none()).flat_map(zsh_flag).collect();
    let cases: String = COMMANDS.iter().map(zsh_case).collect();
    ZSH.replace("COMMANDS", &commands).replace("EVERY", &every.join(" ")).replace("CASES", &cases)
}

fn zsh_case(command: &Command) -> String {
    let mut parts: Vec<String> = flags_of(command).flat_map(zsh_flag).collect();
    let words = words(command);
    if !words.is_empty() {
        parts.push(quoted(&format!("1:word:({})", words.join(" "))));
    }
    if takes_files(command) {
        parts.push("'*:file:_files'".to_string());
    }
    format!("        {}) _arguments {} ;;\n", command.name, parts.join(" "))
}

fn zsh_flag(flag: &Flag) -> Vec<String> {
    let value = flag.value.map_or(String::new(), |value| format!(":{value}:_files"));
    spellings(flag)
        .into_iter()
        .map(|name| {
            let equals = if flag.value.is_some() && name.starts_with("--") { "=" } else { "" };
            quoted(&format!("{name}{equals}[{}]{value}", flag.does))
        })
        .collect()
}

fn fish() -> String {
    let mut text = "# fish completion for chelbugan, made by `chelbugan help fish`.\n".to_string();
    for command in COMMANDS {
        let does = quoted_in_fish(command.does);
        text += &format!(
            "complete -c chelbugan -n __fish_use_subcommand -f -a {} -d {does}\n",
            command.name
        );
    }
    for flag in FLAGS {
        text += &fish_flag(flag);
    }
    for command in COMMANDS {
        let words = words(command);
        let files = if takes_files(command) { "" } else { " -f" };
        if !words.is_empty() || !files.is_empty() {
            let when = format!("-n '__fish_seen_subcommand_from {}'", command.name);
            let words = match words.is_empty() {
                true => String::new(),
                false => format!(" -a '{}'", words.join(" ")),
            };
            text += &format!("complete -c chelbugan {when}{files}{words}\n");
        }
    }
    text
}

fn fish_flag(flag: &Flag) -> String {
    let when = flag.commands.map_or(String::new(), |commands| {
        format!(" -n '__fish_seen_subcommand_from {}'", commands.join(" "))
    });
    let short = flag.short.map_or(String::new(), |short| format!(" -s {}", &short[1..]));
    let value = if flag.value.is_some() { " -r -F" } else { "" };
    let does = quoted_in_fish(flag.does);
    format!("complete -c chelbugan{when}{short} -l {}{value} -d {does}\n", &flag.name[2..])
}

fn quoted_in_fish(text: &str) -> String {
    format!("'{}'", text.replace('\'', "\\'"))
}

#[cfg(test)]
mod tests {
    use super::*;

    #[test]
    fn the_files_are_made_here() {
        for (shell, file) in
            [("bash", "chelbugan.bash"), ("zsh", "_chelbugan"), ("fish", "chelbugan.fish")]
        {
            let path = concat!(env!("CARGO_MANIFEST_DIR"), "/share/").to_string() + file;
            let there = std::fs::read_to_string(path).expect("the completions' file");
            assert!(
                there == of(shell),
                "write it again: chelbugan help {shell} > host/share/{file}"
            );
        }
    }

    /// Neither a colon nor a bracket stands in what zsh reads as a part of its own.
    #[test]
    fn nothing_has_to_be_escaped_for_zsh() {
        let commands = COMMANDS.iter().map(|command| command.does);
        let flags = FLAGS.iter().map(|flag| flag.does);
        for words in commands.chain(flags) {
            assert!(!words.contains([':', '[', ']', '\\', '$', '`', '"']), "{words}");
        }
    }
}
