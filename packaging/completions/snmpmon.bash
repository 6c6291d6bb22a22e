# Completes the arguments of snmpmon. Written by docs/man from crates/mon_cli.

# Offers what a value may be: files (@PATTERN), one of some words, or nothing (-).
_snmpmon_offer() {
    case $1 in
        @*)
            compopt -o filenames 2> /dev/null
            mapfile -t COMPREPLY < <(
                { compgen -f -X "!${1#@}" -- "$2"; compgen -d -- "$2"; } | sort -u
            )
            ;;
        -) ;;
        *) mapfile -t COMPREPLY < <(compgen -W "$1" -- "$2") ;;
    esac
}

_snmpmon() {
    # The arguments up to the one that is completed. They are split at spaces only, since bash would
    # also split an address at its colon; --format=json is two of them.
    local words=() word
    read -ra words <<< "${COMP_LINE:0:COMP_POINT}"
    [[ ${COMP_LINE:0:COMP_POINT} != *[[:space:]] ]] || words+=('')
    words=("${words[@]:1}")
    word=${words[-1]:-}
    [[ $word != --*=* ]] || words[-1]=${word%%=*} words+=("${word#*=}")
    local cur=${words[-1]:-} options
    COMPREPLY=()
    if [ "${#words[@]}" -lt 2 ]; then
        options='--version -h --help'
        [[ $cur == -* ]] || options='replay get next bulk walk set settings agent answer mib station report carry healthz selftest rehearse help'
        _snmpmon_offer "$options" "$cur"
        return
    fi
    # The options of the command, those that may be given again, what each takes, and its operands.
    local again=' ' operands=()
    local -A takes=()
    case ${words[0]} in
        replay)
            options=' --report --format --columns -m --module --names -h --help '
            again=' -m --module '
            takes=([--format]='text json prometheus openmetrics columns html' [-m]='@*' [--module]='@*')
            operands=('-')
            ;;
        get)
            options=' -m --module --names -h --help '
            again=' -m --module '
            takes=([-m]='@*' [--module]='@*')
            operands=('-' '-' '-')
            ;;
        next)
            options=' -m --module --names -h --help '
            again=' -m --module '
            takes=([-m]='@*' [--module]='@*')
            operands=('-' '-' '-')
            ;;
        bulk)
            options=' --module --names -n -m -h --help '
            again=' --module '
            takes=([--module]='@*' [-n]='-' [-m]='-')
            operands=('-' '-' '-')
            ;;
        walk)
            options=' --bulk -m --module --names -h --help '
            again=' -m --module '
            takes=([--bulk]='-' [-m]='@*' [--module]='@*')
            operands=('-' '-' '-')
            ;;
        set)
            options=' -m --module --names -h --help '
            again=' -m --module '
            takes=([-m]='@*' [--module]='@*')
            operands=('-' '-' '-' 'integer string hex oid ip counter32 gauge32 timeticks counter64' '-')
            ;;
        settings)
            options=' --station --listen --file --window --wait-ms --tries --peer --only --up --match --thresholds --split --machines --stations --first-group --append --update --labels -m --module -h --help '
            again=' --peer -m --module '
            takes=([--station]='-' [--listen]='-' [--file]='@*' [--window]='-' [--wait-ms]='-' [--tries]='-' [--peer]='-' [--only]='-' [--match]='-' [--thresholds]='-' [--split]='-' [--machines]='@*' [--stations]='-' [--first-group]='-' [--append]='@*' [--update]='@*' [--labels]='@*' [-m]='@*' [--module]='@*')
            operands=('-' '-')
            ;;
        agent)
            options=' --boots --count -h --help '
            takes=([--boots]='-' [--count]='-')
            operands=('@*.toml')
            ;;
        answer)
            options=' --boots --at --fuses --times -m --module --names -h --help '
            again=' -m --module '
            takes=([--boots]='-' [--at]='-' [--fuses]='-' [--times]='-' [-m]='@*' [--module]='@*')
            operands=('@*.toml')
            ;;
        mib)
            options=' -m --module -h --help '
            again=' -m --module '
            takes=([-m]='@*' [--module]='@*')
            operands=('@*')
            ;;
        station)
            options=' --rounds --check --follow-settings --interval --phase --report-every --save-every --stale-after --alarm-after --log-levels --out --http --http-host --notify --labels --station-label --format --columns --sort -m --module --names -h --help '
            again=' --http-host -m --module '
            takes=([--rounds]='-' [--interval]='-' [--phase]='-' [--report-every]='-' [--save-every]='-' [--stale-after]='-' [--alarm-after]='-' [--out]='@*' [--http]='-' [--http-host]='-' [--notify]='-' [--labels]='@*' [--format]='text json prometheus openmetrics columns html' [--sort]='name rate alarm age' [-m]='@*' [--module]='@*')
            operands=('@*.toml')
            ;;
        report)
            options=' --file --labels --station-label --format --columns --sort -m --module --names -h --help '
            again=' -m --module '
            takes=([--file]='@*' [--labels]='@*' [--format]='text json prometheus openmetrics columns html' [--sort]='name rate alarm age' [-m]='@*' [--module]='@*')
            operands=('@*.toml')
            ;;
        carry)
            options=' --drop --dry-run --previous -h --help '
            again=' --drop '
            takes=([--drop]='-')
            operands=('@*.toml' '@*.toml')
            ;;
        healthz)
            options=' -h --help '
            operands=('-')
            ;;
        selftest)
            options=' -h --help '
            ;;
        rehearse)
            options=' -h --help '
            operands=('@*.toml' '-')
            ;;
        help) operands=('replay get next bulk walk set settings agent answer mib station report carry healthz selftest rehearse') ;;
        *) return ;;
    esac
    local place=0 value=
    for word in "${words[@]:1:${#words[@]}-2}"; do
        if [ -n "$value" ]; then
            value=
        elif [[ $word == -?* ]]; then
            value=${takes[$word]:-}
            word=${word%%=*}
            [[ $again == *" $word "* ]] || options=${options/ $word / }
        else
            place=$((place + 1))
        fi
    done
    if [ -n "$value" ]; then
        _snmpmon_offer "$value" "$cur"
    elif [[ $cur == -* ]]; then
        _snmpmon_offer "$options" "$cur"
    else
        _snmpmon_offer "${operands[place]:--}" "$cur"
    fi
}

complete -F _snmpmon snmpmon
