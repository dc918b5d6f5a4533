# Completion of the command tono for bash: eval "$(tono completion)", or put this file into
# /usr/share/bash-completion/completions/tono.
_tono() {
    local word=${COMP_WORDS[COMP_CWORD]} before=${COMP_WORDS[COMP_CWORD - 1]}
    local commands="render plan cite replay explain plot page play-text sheet convert corpus bits selftest completion"
    local options="--help"
    if [ "$COMP_CWORD" -eq 1 ]; then
        mapfile -t COMPREPLY < <(compgen -W "$commands --help --version" -- "$word")
        return
    fi
    if [ "$COMP_CWORD" -eq 2 ] && [ "${COMP_WORDS[1]}" = corpus ]; then
        mapfile -t COMPREPLY < <(compgen -W "plan render verify --help" -- "$word")
        return
    fi
    case $before in
    --seed | --draw | --station) return ;;
    esac
    case ${COMP_WORDS[1]} in
    render | cite | explain | page) options+=" --seed --draw --station --json" ;;
    plan) options+=" --seed --draw --station --json" ;;
    plot | sheet | convert) options+=" --seed --draw --station" ;;
    replay) options+=" --json" ;;
    selftest) options+=" --report" ;;
    corpus) options+=" --factors --jobs --shard --again --json --output" ;;
    esac
    case ${COMP_WORDS[1]} in
    render | replay | page | convert) options+=" --output" ;;
    esac
    case $word in
    -*) mapfile -t COMPREPLY < <(compgen -W "$options" -- "$word") ;;
    *) mapfile -t COMPREPLY < <(compgen -f -- "$word") ;;
    esac
}
complete -o filenames -F _tono tono
