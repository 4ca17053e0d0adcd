# shellcheck shell=sh disable=SC2034,SC2154
# What the scripts of mux share: their options, the session that they mean, its lock, and commands of its owner.  A script
# that reads this has a function usage.
program=${0##*/}
# Files must not get the numbers of standard streams that are closed.  Writing to this standard output fails, as it would.
true >&2 || exec 2>/dev/null
true 2>/dev/null <&0 || exec </dev/null
true 2>/dev/null >&1 || exec 1</dev/null
mux=${MUX:-mux}
config=${XDG_CONFIG_HOME:-${HOME:-}/.config}/mux
socket=${MUX_SOCKET:-${XDG_RUNTIME_DIR:+$XDG_RUNTIME_DIR/mux/socket}}
user=${MUX_USER:-}
token=${MUX_TOKEN:-}
lock=${MUX_LOCK:-}
joined='' others='' front=''
newline='
'

# With x on one of the second list a user could change rights, open windows, or take another window's title or number.
safe=' wall detach select next prev other split focus remove only fit scrollview clear reset stuff windows displays '
unsafe=' acladd addacl aclchg chacl acldel aclgrp aclumask umask writelock defwritelock multiuser title number kill screen encoding quit '

# fault TEXT [STATUS]: ends with a message, and the status 1 or another one.
fault() {
    printf '%s: %s\n' "$program" "$1" >&2
    exit "${2:-1}"
}

# read_options VALUED PLAIN WORD..: reads options up to the first word that is none, or after --.  Each sets a variable
# of its name: --keep 9 and --keep=9 set keep, --nested sets nested to yes.  Values of an option in $joined are joined by
# commas, and a word that has the pattern $others ends the options.  Sets used to the number of words.
read_options() {
    # (no option has such a name)
    with_value=" $1 " without_value=" $2 " used=0
    shift 2
    while :; do
        # shellcheck disable=SC2254
        case ${1-} in
        -h | --help)
            usage
            exit 0
            ;;
        -V | --version)
            version=$("$mux" --version) || fault "can't ask $mux for its version: install mux, or put it into the PATH"
            printf '%s of %s\n' "$program" "$version"
            exit 0
            ;;
        --)
            used=$((used + 1))
            return
            ;;
        --?*) option=${1#--} ;;
        ${others:---}) return ;;
        -?*) fault "invalid argument: $1 (see $program --help)" 2 ;;
        *) return ;;
        esac
        called=${option%%=*}
        case $called in *[!a-z]*) fault "invalid argument: $1 (see $program --help)" 2 ;; esac
        case $with_value,$without_value,$option in
        *" $called "*,*,*=*) value=${option#*=} ;;
        *" $called "*,*,*)
            [ $# -ge 2 ] || fault "--$called needs a value (see $program --help)" 2
            value=$2 used=$((used + 1))
            shift
            ;;
        *,*" $called "*,*=*) fault "--$called takes no value (see $program --help)" 2 ;;
        *,*" $called "*,*) value=yes ;;
        *) fault "invalid argument: $1 (see $program --help)" 2 ;;
        esac
        [ "$called" != "$joined" ] || eval "value=\$$called\${$called:+,}\$value"
        eval "$called=\$value"
        used=$((used + 1))
        shift
    done
}

# Prints the login's name.  Where it has none, as in some containers, id prints its number and fails.
login_name() {
    id -un 2>/dev/null || :
}
# find_session: the user and the token's file, where nothing says which.
find_session() {
    [ -n "$socket" ] || fault "no socket: set --socket or MUX_SOCKET (XDG_RUNTIME_DIR isn't set)" 2
    [ -n "$user" ] || user=$(login_name)
    [ -n "$token" ] || token=$config/$user.token
}

need_mux() {
    command -v -- "$mux" >/dev/null || fault "no program $mux: set MUX or PATH"
}

# find_users_file: the users' file, where nothing says which.
find_users_file() {
    users=$config/users
    [ -z "$token" ] || [ ! -r "$(dirname -- "$token")/users" ] || users=$(dirname -- "$token")/users
}

# check_name NAME: ends with a fault, unless it can be a user's name.  In the C locale a-z has only these letters.
check_name() (
    LC_ALL=C
    case $1 in
    '' | none | *[!a-z0-9_]* | [!a-z]* | ?????????????????????*)
        fault "invalid user name: $1 (1 to 20 of a-z, 0-9 and _, first a letter; not none)" 2
        ;;
    esac
)
check_title() (
    LC_ALL=C
    case $1 in
    '' | [!A-Za-z_]* | *[!A-Za-z0-9_.-]*)
        fault "invalid title of a window: $1 (letters, digits and _ . -, first a letter or _)" 2
        ;;
    esac
)
check_seconds() {
    case $1 in '' | *[!0-9]* | ??????*) fault "invalid --for: $1 (whole seconds)" 2 ;; esac
}
# read_time TIME: sets seconds to a time such as 30m.
read_time() {
    case $1 in
    *h) seconds=${1%h} unit=3600 ;;
    *m) seconds=${1%m} unit=60 ;;
    *) seconds=${1%s} unit=1 ;;
    esac
    case $seconds in
    '' | 0* | *[!0-9]* | ??????*) fault "invalid time: $1 (write 90s, 30m or 2h)" 2 ;;
    esac
    seconds=$((seconds * unit))
}
# check_window OPTION W: ends with a fault, unless W names a window in a list of aclchg, where some words mean more.
check_window() {
    case $2 in
    *,*) fault "invalid $1: $2 (a comma would name several windows: give the number)" 2 ;;
    *[!#?]*) ;;
    *) fault "invalid $1: $2 (# and ? stand for all windows and commands: give the number)" 2 ;;
    esac
    ! is_command "$2" || fault "invalid $1: $2 (a command has this name: give the number)" 2
}
# quoted WORD: prints a word of a line in quotes, whatever characters it has.
quoted() {
    printf "'%s'" "$(printf '%s' "$1" | sed "s/'/'\\\\''/g")"
}
is_command() {
    case $safe$unsafe in *" $1 "*) return 0 ;; esac
    return 1
}

# Prints the windows of an answer, a line each: a number, a blank, a title.  The answer has two blanks between windows,
# and * at the one in focus.  Whoever names a window could make two of it by two blanks and a number: then numbers don't
# rise.
items() {
    sed 's/  \([0-9][0-9]*\*\{0,1\} \)/\n\1/g' | awk -v program="$program" -v last=-1 '
        NF == 0 { next }
        $1 + 0 <= last && !bad { bad = $0 }
        { last = $1 + 0; line[++n] = last substr($0, length($1) + 1) }
        END {
            if (bad == "") for (i = 1; i <= n; i++) print line[i]
            else {
                print program ": a title has two blanks, so it looks like a window: before " bad >"/dev/stderr"
                exit 1
            }
        }'
}
# give LINE: gives a command.  A server that hangs mustn't keep a lock for good.  mux prints a refusal on both streams: the
# line with its meaning is enough.
give() {
    answer=$(timeout 10 "$mux" command --wait 9 --socket "$socket" --user "$user" --token "$token" "$1" </dev/null) ||
        return
    [ -z "$answer" ] || printf '%s\n' "$answer"
}
# calm TEXT: sets said to what mux printed, but for its warning that others may read the token's file.
calm() {
    said=$1
    case $said in
    "mux: others may read the token's file: "*"$newline"*) said=${said#*"$newline"} ;;
    "mux: others may read the token's file: "*) said='' ;;
    esac
}
# hear LINE: gives a command, and sets said to the answer or to the reason of a refusal.
hear() {
    heard=0
    said=$(give "$1" 2>&1) || heard=$?
    calm "$said"
    return "$heard"
}
# Prints the windows, a line each.
listed() {
    text=$(give windows) || return 1
    [ -z "$text" ] || printf '%s\n' "$text" | items
}

# take_lock PATH: holds the lock as descriptor 9.  Until rights are given, nobody else may open a console or let a user in.
take_lock() {
    # (to open a FIFO would wait)
    { [ -r "$1" ] && [ ! -p "$1" ]; } || fault "can't read the lock: $1 (set --lock or MUX_LOCK)"
    exec 9<"$1"
    flock -w 60 9 || fault "another mux-console, mux-guest, mux-rights or mux-turn has held the lock for a minute: $1: try again"
}
# is_open FOLDER: whether others may write there.
is_open() {
    [ -n "$(find -L "$1" -prune -perm /022 2>/dev/null)" ]
}
# has_mark: whether the session goes on over restarts (muxd-run --again).  In an open folder the mark may be anybody's.
has_mark() {
    [ -f "$socket.session" ] && [ -s "$socket.session" ] && ! is_open "$(dirname -- "$socket")"
}
# session_mark: prints what names the session: its mark, or else its socket.
session_mark() {
    { has_mark && cat -- "$socket.session" 2>/dev/null; } || socket_now
}
socket_now() {
    stat -c '%d %i %z' -- "$socket" 2>/dev/null
}
# clock: sets up to the seconds since the machine started: nobody sets this clock.  A unit with ProcSubset=pid, as muxd@,
# has no such file, but the time at which a process of its own starts.
clock() {
    read -r up _ 2>/dev/null </proc/uptime || up=$(($(cut -d ' ' -f 22 /proc/self/stat) / 100))
    up=${up%%.*}
}
# make_folder: sets folder to a new one for files of this script.
make_folder() {
    folder=$(mktemp -d "${TMPDIR:-/tmp}/$program.XXXXXX" 2>&1) || no_folder "$folder"
}
no_folder() {
    fault "can't make a folder for its files in ${TMPDIR:-/tmp}: ${1##*: }: set TMPDIR to another one"
}
# make_pipes NAME..: makes FIFOs in $folder.  Unlike files they lose nothing on a full disk.
make_pipes() {
    for pipe in "$@"; do
        said=$(mkfifo -m 600 -- "$folder/$pipe" 2>&1) || no_folder "$said"
    done
}
# Prints what programs wrote so far into the FIFO that descriptor 6 has open.
heard_errors() {
    dd bs=65536 count=1 iflag=nonblock <&6 2>/dev/null || :
}
# visible TEXT: prints it as one line with ? for all but ASCII's visible characters, whoever named a file in it.
visible() {
    printf '%s' "$1" | LC_ALL=C tr -c ' -~' '?'
    echo
}
# Ends what is unfinished, and resets the modes that a client sets.  Also those that it refuses to set: mouse reports,
# bracketed paste and the alternate page, as another program may have left them.
modes='\030\033[?1l\033>\033[?7h\033[?25h\033[?1000l\033[?1002l\033[?1003l\033[?1004l\033[?1005l\033[?1006l'
modes=$modes'\033[?2004l\033[?1049l\033[m'
# in_front WORD..: runs a program on this terminal, and sets status.  It isn't in the foreground of the shell, whose traps
# would wait for it.
in_front() {
    exec 6<&0
    env --default-signal=INT,QUIT -- "$@" <&6 6<&- &
    front=$! status=0
    wait "$front" || status=$?
    front=''
    exec 6<&-
}
# end_front: ends what in_front runs.
end_front() {
    [ -z "$front" ] || { kill "$front" && wait "$front"; } 2>/dev/null || :
}
# exit_on_signals: on a signal the script ends by its trap EXIT.
exit_on_signals() {
    trap 'exit 129' HUP
    trap 'exit 130' INT
    trap 'exit 131' QUIT
    trap 'exit 143' TERM
}
# setting NAME FILE: prints a setting of a unit's file, in which blanks at the start and carriage returns don't count.
setting() {
    sed -n "s/^[[:blank:]]*$1=[\"']\{0,1\}\([^\"'\r]*\).*/\1/p" "$2" | tail -n 1
}
# trails_of FOLDER: prints where the session of /etc/mux/GROUP writes its trails.
trails_of() {
    [ -r "$1/muxd.conf" ] || return 1
    trails=$(setting TRAILS "$1/muxd.conf")
    [ -n "$trails" ] || return 1
    printf '%s\n' "$trails"
}
# is_trail FILE: whether it is a file and no link, by which the login that runs muxd could let root read something else.
is_trail() {
    [ -f "$1" ] && [ ! -L "$1" ]
}
# is_written FILE: whether its server, whose process is in the name, has it open.
is_written() {
    server=${1%.trail}
    server=${server##*.}
    case $server in '' | *[!0-9]*) return 1 ;; esac
    [ -d "/proc/$server/fd" ] && [ -n "$(find -L "/proc/$server/fd" -maxdepth 1 -samefile "$1" 2>/dev/null)" ]
}
# newest_trail FOLDER: prints the trail that a server has open, else the last one by name.  The clock may have been set
# back, so the last name alone could be that of a session long over.
newest_trail() {
    last='' open=''
    for next in "$1"/*.trail; do
        is_trail "$next" || continue
        last=$next
        ! is_written "$next" || open=$next
    done
    printf '%s' "${open:-$last}"
}
# Waits until a key is pressed, or for two seconds, so that people can read what stands there before a page comes.  The
# key isn't read here: it is the first one of what comes.
wait_for_reader() (
    settings=$(stty -g) || exit 0
    trap 'stty "$settings"' EXIT
    exit_on_signals
    stty -icanon -echo
    perl -e 'vec(my $in, 0, 1) = 1; select($in, undef, undef, 2)' 2>/dev/null || sleep 2
)
