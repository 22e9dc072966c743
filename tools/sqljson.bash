# Completion of bash for sqljson and its companions.

# The files and folders whose names begin with the word, which may have backslashes as it is typed, and whose names end so.
# Of files whose names begin with a hyphen there are none: they would be taken for words.
_sqljson_files() {
    local word=${1//\\/} name
    compopt -o filenames 2>/dev/null
    for name in "$word"*; do
        if [[ $name != -* && (-d $name || $name == *"$2" && -e $name) ]]; then
            COMPREPLY+=("$name")
        fi
    done
}

_sqljson_statements() {
    _sqljson_files "$1" .sql
}

# Those of the words behind the first that begin with it.
_sqljson_words() {
    mapfile -t COMPREPLY < <(compgen -W "${*:2}" -- "$1")
}

_sqljson() {
    local word=${COMP_WORDS[COMP_CWORD]} command=${COMP_WORDS[1]}
    COMPREPLY=()
    if ((COMP_CWORD == 1)); then
        _sqljson_words "$word" run check selfrun show group scan
    elif [[ $command == run && $word == -* ]]; then
        _sqljson_words "$word" --unique-keys
    elif [[ $command == scan || $command == selfrun && $COMP_CWORD -eq 2 ]]; then
        return
    else
        _sqljson_statements "$word"
    fi
}

_sqljson_companion() {
    local word=${COMP_WORDS[COMP_CWORD]}
    COMPREPLY=()
    if [[ $word == -* ]]; then
        case $1 in
            *split-rows) _sqljson_words "$word" --help --allow-error-rows --numbers --keep-nul --drop-nul --null-columns --statements ;;
            *where) _sqljson_words "$word" --help --program ;;
            *in-parallel) _sqljson_words "$word" --help --unique-keys --piece --list --part --program ;;
            *load)
                _sqljson_words "$word" --help --append --replace --table --errors --error-text --unique-keys --tables-only --program
                ;;
            *why) _sqljson_words "$word" --help --unique-keys --program ;;
        esac
    elif [[ $1 == *where ]]; then
        _sqljson_statements "$word"
    else
        _sqljson_files "$word" ""
    fi
}

# (where nothing is found, as of ~/name, by what bash has)
complete -o default -F _sqljson sqljson
complete -o default -F _sqljson_companion sqljson-split-rows sqljson-where sqljson-in-parallel sqljson-load sqljson-why
