//! Completion of subcommands, options and file names, for a shell to read.

use crate::arguments::Arguments;
use crate::failure::Failure;
use crate::subcommands::SUBCOMMANDS;
use shell::console::print;
use std::process::ExitCode;

pub fn completion(arguments: &Arguments) -> Result<ExitCode, Failure> {
    match arguments.words() {
        [shell] if shell == "bash" => {
            print(format_args!("{}", bash()));
            Ok(ExitCode::SUCCESS)
        }
        _ => Err(arguments.fault("the shell is bash")),
    }
}

fn bash() -> String {
    let names: Vec<&str> = SUBCOMMANDS.iter().map(|known| known.name).collect();
    let mut cases = String::new();
    for known in SUBCOMMANDS {
        let options = known.values.iter().chain(known.flags).chain(&["help"]);
        let options: Vec<String> = options.map(|option| format!("--{option}")).collect();
        let options = options.join(" ");
        cases += &format!("        {}) options='{options}' ;;\n", known.name);
    }
    format!(
        "\
_bursztok() {{
    local word=${{COMP_WORDS[COMP_CWORD]}} options=''
    if [ \"$COMP_CWORD\" -eq 1 ]; then
        mapfile -t COMPREPLY < <(compgen -W '{} help --help --version' -- \"$word\")
        return
    fi
    case ${{COMP_WORDS[1]}} in
        help) options='{}' ;;
{cases}    esac
    case $word in
        -*) mapfile -t COMPREPLY < <(compgen -W \"$options\" -- \"$word\") ;;
        *)
            mapfile -t COMPREPLY < <(compgen -f -- \"$word\")
            [ \"${{COMP_WORDS[1]}}\" != help ] || mapfile -t COMPREPLY < <(compgen -W \"$options\" -- \"$word\")
            ;;
    esac
}}
complete -o filenames -F _bursztok bursztok
",
        names.join(" "),
        names.join(" ")
    )
}
