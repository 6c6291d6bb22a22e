"""Writes the completions of bash and zsh from the command line."""
import command_line

HEAD = "# Completes the arguments of snmpmon. Written by docs/man from crates/mon_cli.\n"
# The files that are offered for a value, by what help calls it.
FILES = {"SETTINGS": "*.toml", "OLD": "*.toml", "NEW": "*.toml", "FILE": "*"}
ABOUT_HELP = "Prints the help of a command"

BASH = (
    HEAD
    + """
# Offers what a value may be: files (@PATTERN), one of some words, or nothing (-).
_snmpmon_offer() {
    case $1 in
        @*)
            compopt -o filenames 2> /dev/null
            mapfile -t COMPREPLY < <(
                { compgen -f -X "!${1#@}" -- "$2"; compgen -d -- "$2"; } | sort -u
            )
            ;;
        -) ;;
        *) mapfile -t COMPREPLY < <(compgen -W "$1" -- "$2") ;;
    esac
}

_snmpmon() {
    # The arguments up to the one that is completed. They are split at spaces only, since bash would
    # also split an address at its colon; --format=json is two of them.
    local words=() word
    read -ra words <<< "${COMP_LINE:0:COMP_POINT}"
    [[ ${COMP_LINE:0:COMP_POINT} != *[[:space:]] ]] || words+=('')
    words=("${words[@]:1}")
    word=${words[-1]:-}
    [[ $word != --*=* ]] || words[-1]=${word%%=*} words+=("${word#*=}")
    local cur=${words[-1]:-} options
    COMPREPLY=()
    if [ "${#words[@]}" -lt 2 ]; then
        options='@FIRST@'
        [[ $cur == -* ]] || options='@WORDS@'
        _snmpmon_offer "$options" "$cur"
        return
    fi
    # The options of the command, those that may be given again, what each takes, and its operands.
    local again=' ' operands=()
    local -A takes=()
    case ${words[0]} in
@CASES@
        help) operands=('@COMMANDS@') ;;
        *) return ;;
    esac
    local place=0 value=
    for word in "${words[@]:1:${#words[@]}-2}"; do
        if [ -n "$value" ]; then
            value=
        elif [[ $word == -?* ]]; then
            value=${takes[$word]:-}
            word=${word%%=*}
            [[ $again == *" $word "* ]] || options=${options/ $word / }
        else
            place=$((place + 1))
        fi
    done
    if [ -n "$value" ]; then
        _snmpmon_offer "$value" "$cur"
    elif [[ $cur == -* ]]; then
        _snmpmon_offer "$options" "$cur"
    else
        _snmpmon_offer "${operands[place]:--}" "$cur"
    fi
}

complete -F _snmpmon snmpmon
"""
)

ZSH = (
    "#compdef snmpmon\n"
    + HEAD
    + """
_snmpmon() {
    local state line curcontext=$curcontext
    local -a commands=(
@COMMANDS@
    )
    _arguments -C @FIRST@ '1: :->command' '*:: :->argument'
    case $state in
        command) _describe command commands ;;
        argument)
            case $line[1] in
@CASES@
                help) _describe command commands ;;
            esac
            ;;
    esac
}

_snmpmon "$@"
"""
)


def sort_of(argument):
    """What is offered for a value: one of some words, files as @PATTERN, or nothing (-)."""
    names = " ".join(command_line.names_of(argument.value))
    return names or ("@" + FILES[argument.shown] if argument.shown in FILES else "-")


def bash_case(command):
    """The arm of bash's `case` for a command."""
    options = [a for a in command.arguments if a.flags]
    flags = [flag for a in options for flag in a.flags] + ["-h", "--help"]
    again = [flag for a in options if a.takes == "Each" for flag in a.flags]
    takes = " ".join(
        f"[{flag}]='{sort_of(a)}'" for a in options if a.takes != "Nothing" for flag in a.flags
    )
    operands = " ".join(f"'{sort_of(a)}'" for a in command.arguments if not a.flags)
    lines = [f"options=' {' '.join(flags)} '"]
    lines += [f"again=' {' '.join(again)} '"] * bool(again)
    lines += [f"takes=({takes})"] * bool(takes)
    lines += [f"operands=({operands})"] * bool(operands)
    return (
        f"        {command.word})\n"
        + "".join(f"            {line}\n" for line in lines)
        + "            ;;"
    )


def quoted(text):
    return "'" + text.replace("'", "'\\''") + "'"


def zsh_value(argument):
    """What zsh offers for a value."""
    sort = sort_of(argument)
    return {"@*": "_files", "-": " "}.get(sort) or (
        f'_files -g "{sort[1:]}"' if sort[0] == "@" else f"({sort})"
    )


def zsh_argument(argument):
    """An option or operand as zsh's `_arguments` has it."""
    value = f":{argument.shown}:{zsh_value(argument)}" if argument.takes != "Nothing" else ""
    if not argument.flags:
        return quoted(("*" if argument.takes == "Many" else "") + value)
    words = "".join("\\" + c if c in "[]\\" else c for c in argument.help)
    again = "*" if argument.takes == "Each" else ""
    if len(argument.flags) == 1:
        return quoted(f"{again}{argument.flags[0]}[{words}]{value}")
    return f"'{again}'{{{','.join(argument.flags)}}}{quoted(f'[{words}]{value}')}"


def zsh_case(command):
    """The arm of zsh's `case` for a command."""
    listed = [*map(zsh_argument, command.arguments), "{-h,--help}'[Prints help]'"]
    return (
        f"                {command.word})\n                    _arguments \\\n"
        + " \\\n".join(f"                        {a}" for a in listed)
        + "\n                    ;;"
    )


def made():
    """The completions by the names of their files."""
    commands = command_line.commands()
    words = " ".join(command.word for command in commands)
    first = command_line.first_arguments()
    flags = " ".join(flag for argument in first for flag in argument.flags)
    bash = (
        BASH.replace("@WORDS@", f"{words} help")
        .replace("@COMMANDS@", words)
        .replace("@FIRST@", f"{flags} -h --help")
    )
    described = [
        f"        {quoted(word + ':' + about.replace(':', chr(92) + ':'))}"
        for word, about in [*[c[:2] for c in commands], ("help", ABOUT_HELP)]
    ]
    zsh = ZSH.replace("@COMMANDS@", "\n".join(described)).replace(
        "@FIRST@", " ".join([*map(zsh_argument, first), "{-h,--help}'[Prints help]'"])
    )
    return {
        "completions/snmpmon.bash": bash.replace("@CASES@", "\n".join(map(bash_case, commands))),
        "completions/_snmpmon": zsh.replace("@CASES@", "\n".join(map(zsh_case, commands))),
    }
