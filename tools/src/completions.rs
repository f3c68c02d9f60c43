//! Completions for shells, from the table of commands.

use crate::command::Command;
use crate::commands::COMMANDS;
use crate::options::Choice;

fn names() -> String {
    let names: Vec<&str> = COMMANDS.iter().map(|command| command.name).collect();
    names.join(" ")
}

fn options(command: &Command) -> String {
    let names: Vec<String> =
        command.choices().iter().map(|choice| format!("--{}", choice.name)).collect();
    names.join(" ")
}

/// Each option of each command that has one of few words.
fn few() -> impl Iterator<Item = (&'static Command, &'static Choice)> {
    let of = |command: &'static Command| {
        command.choices().into_iter().map(move |choice| (command, choice))
    };
    COMMANDS.iter().flat_map(of).filter(|(_, choice)| !choice.among.is_empty())
}

pub fn bash() -> String {
    let values: String = few()
        .map(|(command, choice)| {
            let words = choice.among.join(" ");
            format!("    {}:--{}) words='{words}' ;;\n", command.name, choice.name)
        })
        .collect();
    let options: String = COMMANDS
        .iter()
        .map(|command| format!("        {}) words='{}' ;;\n", command.name, options(command)))
        .collect();
    format!(
        "# Completions of plumanchor for bash.\n\
         _plumanchor() {{\n    \
             local word=${{COMP_WORDS[COMP_CWORD]}} last=${{COMP_WORDS[COMP_CWORD - 1]}} words=''\n    \
             case ${{COMP_WORDS[1]}}:$last in\n\
         {values}    \
             help:help) words='{names}' ;;\n    \
             completion:completion) words='bash zsh fish' ;;\n    \
             *)\n        \
                 [[ $COMP_CWORD -eq 1 ]] && words='{names} --help --version'\n        \
                 [[ $COMP_CWORD -gt 1 && $word == -* ]] && case ${{COMP_WORDS[1]}} in\n\
         {options}        \
                 esac ;;\n    \
             esac\n    \
             if [[ $words ]]; then\n        \
                 mapfile -t COMPREPLY < <(compgen -W \"$words\" -- \"$word\")\n    \
             else\n        \
                 mapfile -t COMPREPLY < <(compgen -f -- \"$word\")\n    \
             fi\n\
         }}\n\
         complete -o filenames -F _plumanchor plumanchor\n",
        names = names()
    )
}

pub fn zsh() -> String {
    let quoted = |text: &str| text.replace('\'', "'\\''").replace(':', "\\:");
    let listed: String = COMMANDS
        .iter()
        .map(|command| format!("        '{}:{}'\n", command.name, quoted(command.purpose)))
        .collect();
    let option = |choice: &Choice| {
        let told = quoted(choice.purpose);
        match choice.value {
            None => format!("'--{}[{told}]'", choice.name),
            Some(value) if choice.among.is_empty() => {
                format!("'--{}=[{told}]:{value}:_files'", choice.name)
            }
            Some(value) => {
                format!("'--{}=[{told}]:{value}:({})'", choice.name, choice.among.join(" "))
            }
        }
    };
    let cases: String = COMMANDS
        .iter()
        .map(|command| {
            let options: Vec<String> = command.choices().into_iter().map(option).collect();
            format!("    {}) _arguments {} '*:file:_files' ;;\n", command.name, options.join(" "))
        })
        .collect();
    format!(
        "#compdef plumanchor\n\
         _plumanchor() {{\n    \
             local -a commands\n    \
             commands=(\n{listed}    )\n    \
             if ((CURRENT == 2)); then\n        \
                 _describe command commands\n        \
                 return\n    \
             fi\n    \
             case $words[2] in\n{cases}    esac\n\
         }}\n\
         _plumanchor \"$@\"\n"
    )
}

pub fn fish() -> String {
    let quoted = |text: &str| text.replace('\\', "\\\\").replace('\'', "\\'");
    let mut text = String::from("# Completions of plumanchor for fish.\n");
    for command in COMMANDS {
        let (name, purpose) = (command.name, quoted(command.purpose));
        text += &format!(
            "complete -c plumanchor -n __fish_use_subcommand -f -a {name} -d '{purpose}'\n"
        );
        for choice in command.choices() {
            let value = match (choice.value, choice.among) {
                (None, _) => String::new(),
                (Some(_), []) => " -r".to_string(),
                (Some(_), words) => format!(" -x -a '{}'", words.join(" ")),
            };
            let (option, told) = (choice.name, quoted(choice.purpose));
            text += &format!(
                "complete -c plumanchor -n '__fish_seen_subcommand_from {name}' -l {option}{value} -d '{told}'\n"
            );
        }
    }
    text
}
