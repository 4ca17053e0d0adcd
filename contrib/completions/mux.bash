# Completions of bash for muxd, mux, mux-web, muxsim, mux-trail, vtcat and the scripts of mux: the options that --help lists.

# Prints the options that a help text on standard input lists, or with the word Commands its subcommands.
_mux_listed() {
    local line options='^ +(-[A-Za-z], )?(--[a-z-]+)' commands='^  ([a-z]+)  ' part=''
    while IFS= read -r line; do
        [[ $line =~ ^[A-Z][a-z]*:$ ]] && part=${line%:}
        if [[ ${1-} == Commands ]]; then
            [[ $part == Commands && $line =~ $commands ]] && printf '%s\n' "${BASH_REMATCH[1]}"
        elif [[ $line =~ $options ]]; then
            printf '%s\n' "${BASH_REMATCH[2]}"
        fi
    done
}

_mux() {
    local program=$1 current=$2 previous=$3 words='' verb=''
    COMPREPLY=()
    # mux-join takes an account.
    [[ ${program##*/} != mux-join || $current == -* || $previous == -* ]] || previous=--with
    case $previous in
    --socket | --users | --setup | --token | --sizes | --trail | --seals | --state | --rights | --trails | --lock | --page | --links | --watch-token)
        mapfile -t COMPREPLY < <(compgen -f -- "$current")
        compopt -o filenames 2>/dev/null
        return
        ;;
    --pty) words='perl socat script' ;;
    --show) words='own' ;;
    --loops) words='1 2 3 4 5 6 7 8' ;;
    --term) words='mux mux-8color vt220' ;;
    --leave) words='none' ;;
    --login | --to | --with | --give | --drop)
        # Accounts, the last of several with commas between them.
        [[ $current != *,* ]] || words=${current%,*},
        mapfile -t COMPREPLY < <(compgen -u -P "$words" -- "${current##*,}")
        return
        ;;
    --user | --rows | --cols | --title | --keep | --window | --read | --session | --for | --wait | --owner | --at | --since) return ;;
    --until | --days | --name | --web | --listen | --origin | --watch | --most) return ;;
    --presets | --guest | --again | --stay | --number | --first) return ;;
    --writers) words='all one' ;;
    *)
        # mux and mux-trail have subcommands, each with its own options.
        if [[ ${program##*/} == mux || ${program##*/} == mux-trail ]]; then
            verb=${COMP_WORDS[1]}
            if ((COMP_CWORD == 1)) || [[ $verb == help && $COMP_CWORD -eq 2 ]]; then
                words=$("$program" --help 2>/dev/null | _mux_listed Commands)
                ((COMP_CWORD > 1)) || words="$words --help --version"
            elif [[ ${program##*/} == mux-trail && $current != -* ]]; then
                # The shell itself completes a trail's file.
                return
            else
                words=$("$program" "$verb" --help 2>/dev/null | _mux_listed)
            fi
        else
            words=$("$program" --help 2>/dev/null | _mux_listed)
            [[ ${program##*/} != mux-user || $current == -* ]] || words='add replace remove give show list link'
        fi
        ;;
    esac
    mapfile -t COMPREPLY < <(compgen -W "$words" -- "$current")
}

# In a checkout the scripts are the executable files of contrib/; tools/dist writes all names here.
_mux_names="muxd mux mux-web muxsim mux-trail vtcat $(cd -- "${BASH_SOURCE[0]%/*}/.." && find . -maxdepth 1 -type f -perm -u+x -printf '%f ')"
# shellcheck disable=SC2086
complete -F _mux -o bashdefault -o default $_mux_names
unset _mux_names
