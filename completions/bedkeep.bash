# bash completion for bedkeep

# The options of a kind of run.
_bedkeep_options() {
    case $1 in
        session) echo '-g -i -b -fi -width -limit' ;;
        merge) echo '-g -i -d -s -c -o -width -limit' ;;
        cluster) echo '-g -i -d -width -limit' ;;
        complement) echo '-g -i -L -width -limit' ;;
        genomecov) echo '-g -i -bg -bga -d -width -limit' ;;
        intersect) echo '-g -a -b -wa -wb -u -v -c -width -limit' ;;
        subtract) echo '-g -a -b -A -width -limit' ;;
        getfasta) echo '-g -bed -fi -s -tab -width -limit' ;;
        records) echo '-g -i -width -limit' ;;
    esac
}

# What the value of an option is, for a kind of run; nothing if it takes none.
_bedkeep_value() {
    case $1:$2 in
        *:-g | *:-i | *:-b | *:-fi | *:-a | *:-bed) echo file ;;
        *:-width) echo width ;;
        *:-limit | merge:-d | cluster:-d | merge:-c) echo other ;;
        *:-o) echo operation ;;
    esac
}

# The options that can't come after an option, for a kind of run: itself, and those that it is not allowed beside.
_bedkeep_taken() {
    case $1:$2 in
        genomecov:-bg) echo '-bg -bga -d' ;;
        genomecov:-bga) echo '-bga -bg -d' ;;
        genomecov:-d) echo '-d -bg -bga' ;;
        intersect:-wb) echo '-wb -u -v -c' ;;
        intersect:-u) echo '-u -wb -v -c' ;;
        intersect:-v) echo '-v -wb -u -c' ;;
        intersect:-c) echo '-c -wb -u -v' ;;
        *) echo "$2" ;;
    esac
}

# The options that can still come after these arguments of a kind of run.
_bedkeep_left() {
    local subcommand=$1 option word taken=' '
    shift
    for word in "$@"; do
        taken+="$(_bedkeep_taken "$subcommand" "$word") "
    done
    for option in $(_bedkeep_options "$subcommand"); do
        [[ $taken == *" $option "* ]] || echo "$option"
    done
}

_bedkeep() {
    local kinds='session merge cluster complement genomecov intersect subtract getfasta records'
    local word=${COMP_WORDS[COMP_CWORD]} before=${COMP_WORDS[COMP_CWORD - 1]} subcommand=${COMP_WORDS[1]}
    local choices=
    COMPREPLY=()
    if ((COMP_CWORD == 1)); then
        choices="$kinds help -h --help --version"
    elif [[ $subcommand == help || $subcommand == --help ]]; then
        ((COMP_CWORD == 2)) && choices=$kinds
    elif ((COMP_CWORD == 2)) || [[ ${COMP_WORDS[2]} != -h && ${COMP_WORDS[2]} != --help ]]; then
        case $(_bedkeep_value "$subcommand" "$before") in
            file)
                compopt -o filenames
                mapfile -t COMPREPLY < <(compgen -f -- "$word")
                return
                ;;
            width) choices='3 4 5 6' ;;
            operation) choices='count sum min max collapse distinct' ;;
            other) ;;
            *)
                choices=$(_bedkeep_left "$subcommand" "${COMP_WORDS[@]:2:COMP_CWORD-2}")
                ((COMP_CWORD == 2)) && [[ -n $choices ]] && choices+=' --help -h'
                ;;
        esac
    fi
    mapfile -t COMPREPLY < <(compgen -W "$choices" -- "$word")
}

# What isn't an argument of bedkeep, such as the file after <, is completed as the shell does.
complete -o bashdefault -o default -F _bedkeep bedkeep
