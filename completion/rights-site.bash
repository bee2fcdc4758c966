# Completion of rights-site for bash: commands, options, and the J= words of the peers.

_rights_site() {
    local current=${COMP_WORDS[COMP_CWORD]} previous=${COMP_WORDS[COMP_CWORD - 1]}
    local command='' option='' id='' sites='' named=' ' word index value
    COMPREPLY=()

    # bash parts '--id=1' and '2=host:1' at '=' and ':' into words of their own.
    if [[ $current == : || $previous == : ]]; then
        return
    elif [[ $current == '=' ]]; then
        current=''
        option=$previous
    elif [[ $previous == '=' ]]; then
        option=${COMP_WORDS[COMP_CWORD - 2]}
    elif [[ $previous == --* ]]; then
        option=$previous
    fi

    for ((index = 1; index < COMP_CWORD; index++)); do
        word=${COMP_WORDS[index]}
        value=${COMP_WORDS[index + 1]}
        [[ $value == '=' ]] && value=${COMP_WORDS[index + 2]}
        case $word in
            sim | run | check-journal) [[ -n $command ]] || command=$word ;;
            # What follows names a peer's address here, and not the peer's own.
            --from) if [[ ${COMP_WORDS[index + 1]} == '=' ]]; then index=$((index + 2)); else index=$((index + 1)); fi ;;
            --id) id=$value ;;
            --sites) sites=$value ;;
            [1-9] | 1[0-6]) [[ ${COMP_WORDS[index + 1]} == '=' ]] && named+="$word " ;;
            [1-9]=* | 1[0-6]=*) named+="${word%%=*} " ;;
        esac
    done

    case $command in
        '') mapfile -t COMPREPLY < <(compgen -W 'sim run check-journal --help --version' -- "$current") ;;
        sim) mapfile -t COMPREPLY < <(compgen -W '--help' -- "$current") ;;
        run) _rights_site_run ;;
        check-journal) _rights_site_check ;;
    esac
}

# What may follow 'check-journal': one file, and the flag.
_rights_site_check() {
    if [[ $current == -* ]]; then
        mapfile -t COMPREPLY < <(compgen -W '--json --help' -- "$current")
    else
        compopt -o filenames 2>/dev/null
        mapfile -t COMPREPLY < <(compgen -f -- "$current")
    fi
}

# What may follow 'run'. It reads what _rights_site found in the words before.
_rights_site_run() {
    local options=''
    case $option in
        --id)
            mapfile -t COMPREPLY < <(compgen -W "$(echo {1..16})" -- "$current")
            return
            ;;
        --sites)
            mapfile -t COMPREPLY < <(compgen -W "$(echo {2..16})" -- "$current")
            return
            ;;
        --from)
            _rights_site_peers ' '
            return
            ;;
        --once | --journal)
            compopt -o filenames 2>/dev/null
            mapfile -t COMPREPLY < <(compgen -f -- "$current")
            return
            ;;
        # An address is the caller's to say: where this site listens, or after 'J='. So are a name and the times.
        --listen | --http | --host | --tick | --silent | --keys | --system | [1-9]*)
            return
            ;;
    esac
    [[ $current == *=* ]] && return

    for word in --id --sites --listen --from --http --host --tick --silent --keys --once --journal --system --log --help; do
        # Only an address for one peer and a name of the host may be given more than once.
        [[ $word != --from && $word != --host && " ${COMP_WORDS[*]:1:COMP_CWORD-1} " == *" $word "* ]] || options+="$word "
    done
    if [[ $current == -* ]]; then
        mapfile -t COMPREPLY < <(compgen -W "$options" -- "$current")
    else
        _rights_site_peers "$named" "$options"
    fi
}

# 'J=' for each other site but those in the first list, and the words of the second.
_rights_site_peers() {
    local words=${2-} number
    [[ $sites =~ ^([2-9]|1[0-6])$ ]] || sites=16
    for ((number = 1; number <= sites; number++)); do
        [[ $number == "$id" || $1 == *" $number "* ]] || words+="$number= "
    done
    mapfile -t COMPREPLY < <(compgen -W "$words" -- "$current")
    # The address follows 'J=' with no space between.
    [[ ${#COMPREPLY[@]} -eq 1 && ${COMPREPLY[0]} == *= ]] && compopt -o nospace 2>/dev/null
}

complete -F _rights_site rights-site ./rights-site
