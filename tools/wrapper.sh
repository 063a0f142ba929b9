# What stands before the program on a command line: help and the version, `-` for standard input, and what is said after the program has
# refused something. For a shell that has set
#     program   the program's path
#     called    how it is called, in help: ./remus
#     version   the version's number
#     why       what says why a line of a file is bad, or nothing where that isn't installed

say() { echo "remus: $*" >&2; }

# What help says of the whole program.
help_of_all() {
    cat <<TEXT
remus $version: a high-availability pair for bare RISC-V guests, proved

    $called sim FILE           plays a script, and answers each of its lines by a line
    $called run FILE           runs a pair in threads, as two hosts would
    $called check-stream FILE --pages P --sectors S
                               lists the checkpoints of a file
    $called live               answers lines as they come on standard input
    $called node               is one host of a pair, by lines as they come on standard input

    $called help COMMAND       says more of a command; so does $called COMMAND --help
    $called --version          prints the version

FILE is - for standard input. The status is 0; or 1 where a line or a file was refused, or a read or a write failed; or 2 where the
command line was.
TEXT
}

help_of_sim() {
    cat <<TEXT
$called sim FILE    plays a script: a file with a command a line, which is answered by a line (FILE is - for standard input)

The first line boots a pair of hosts and a guest, as 'boot 2 1 1 beacon': pages of memory, sectors of disk, clients, and the guest.
Those after it let the guest run, carry checkpoints and acknowledgements, are clients, and stop hosts:

    step N     cut     send     backup K     ack K     show     sector S
    deliver C HEX     admit C     take C     losein C P     loseout C P
    fail primary     golive     fail backup     protect

A bad line ends the script: 'line N: bad', status 1. docs/SCRIPTS.md has the rules, and examples/ scripts to begin with.
TEXT
}

help_of_run() {
    cat <<TEXT
$called run FILE    runs a pair in threads, as two hosts would, and prints what each client was answered (FILE is - for standard input)

The file has these lines, in this order:

    boot PAGES SECTORS CLIENTS GUEST     the pair, as in a script
    epochs E S                           it runs E epochs of at most S steps
    client C ACTION ..                   what client C does; an action is take or deliver:HEX

docs/SCRIPTS.md has the rules, and examples/serve.run is such a file.
TEXT
}

help_of_check_stream() {
    cat <<TEXT
$called check-stream FILE --pages P --sectors S    lists the checkpoints of a file (FILE is - for standard input)

P and S are the pages of memory, 1 to 16384, and the sectors of disk, 1 to 32768, of the machine whose checkpoints they are.
There is a line for each: 'delta 1 1 pages 1 sectors 0 frames 1'. docs/CHECKPOINT.md has the format, and examples/beacon2.stream is one.
TEXT
}

help_of_live() {
    cat <<TEXT
$called live    plays lines as they come on standard input, and answers each before it reads on

The lines are those of a script; a bad one is answered 'bad', and ends nothing. docs/LIVE.md has the rules.
TEXT
}

help_of_node() {
    cat <<TEXT
$called node    is one host of a pair, and no more: it reads lines on standard input, and answers each before it reads on

    boot PAGES SECTORS CLIENTS GUEST     a primary, which is alone
    standby PAGES SECTORS G              a standby, told that it takes checkpoints of generation G
    arrive HEX     step N     cut     text N FROM COUNT     ack G N     alone     protect
    piece HEX      commit     restart     golive     show     sector S

Another program carries checkpoints and frames from one node to the other. docs/NODES.md has the rules.
TEXT
}

# Whether there is a command of that name, of which help can be asked.
is_known() {
    case $1 in
    sim | run | check-stream | live | node) ;;
    *) return 1 ;;
    esac
}

# Whether one of these words, before a word --, asks for help.
asks_for_help() {
    local word
    for word in "$@"; do
        case $word in
        --) return 1 ;;
        -h | --help) return 0 ;;
        esac
    done
    return 1
}

# Answers what is asked of the command line itself, and ends: help, the version, and help of what isn't there. Else it comes back.
answer_for_program() {
    local command=${1:-}
    case $command in
    --version | -V) [ $# -ne 1 ] || put echo "remus $version" ;;
    --help | -h) put help_of_all ;;
    help)
        [ $# -ne 1 ] || put help_of_all
        if [ $# -eq 2 ] && is_known "$2"; then put "help_of_${2//-/_}"; fi
        refuse
        ;;
    *) if is_known "$command" && asks_for_help "${@:2}"; then put "help_of_${command//-/_}"; fi ;;
    esac
}

# Prints an answer, and ends.
put() {
    "$@" 2>/dev/null || cannot_write
    exit 0
}

cannot_write() {
    say "cannot write to standard output"
    exit 1
}

# Refuses a command line, in the program's words and with its status.
refuse() {
    say "${1:-bad command line}"
    [ "${2:-2}" -ne 2 ] || name_help
    exit "${2:-2}"
}

name_help() {
    echo "remus: $called --help says what it takes" >&2
}

# Whether nothing can be written to standard output, as far as that can be told without writing: a full device, or a file where no space
# is left.
is_full() {
    case $(stat -Lc '%F %t:%T' "/proc/$$/fd/1" 2>/dev/null) in
    "character special file 1:7") ;;
    "regular "*) [ "$(stat -Lfc %a "/proc/$$/fd/1")" = 0 ] ;;
    *) return 1 ;;
    esac
}

# What is said once a command has ended: after a refused command line where help is, after a bad line on a terminal why it is bad, and of
# an end without a word what it came from. What the program said itself stands before it.
say_after() {
    local status=$1 said=$2 command=$3 file=$4
    case $status:$said in
    2:*) name_help ;;
    1:"remus: line "*": bad"*)
        if [ -t 2 ] && [ -n "$why" ] && [ -f "$file" ]; then "$why" "--$command" "$file" >&2 2>/dev/null; fi
        ;;
    1:)
        if is_full; then
            say "cannot write to standard output"
        elif [ "$command" = sim ] || [ "$command" = run ]; then
            say "ended early: standard output couldn't be written, or memory was refused"
        fi
        ;;
    esac
}

# Runs the program with these words, and ends with its status. Where lines come and go for as long as the input lasts, nothing is added.
run_program() {
    local word words=() file=${2:-} words_said said="" status child stopped=""
    case $#:${1:-} in
    1:live | 1:node) exec "$program" "$1" ;;
    esac
    [ "$file" != -- ] || file=${3:-}
    for word in "$@"; do
        if [ "$word" = - ]; then
            # A socket, as ssh gives one, can't be opened by a name.
            [ ! -S /dev/stdin ] || exec < <(cat)
            word=/dev/stdin
        fi
        words+=("$word")
    done
    # What the program says is a line, and waits in a pipe until it has ended. A signal to this shell goes on to the program.
    exec {words_said}<> <(:)
    trap 'stopped=INT; kill "$child" 2>/dev/null' INT
    trap 'stopped=TERM; kill "$child" 2>/dev/null' TERM
    trap 'stopped=HUP; kill "$child" 2>/dev/null' HUP
    # A guest's memory is filled as a whole, which takes less time in huge pages (docs/DECISIONS.md).
    GLIBC_TUNABLES="glibc.malloc.hugetlb=1${GLIBC_TUNABLES:+:$GLIBC_TUNABLES}" \
        "$program" ${words[@]+"${words[@]}"} <&0 2>&"$words_said" {words_said}>&- &
    child=$!
    # One that came before the child was known.
    [ -z "$stopped" ] || kill "$child" 2>/dev/null
    while wait "$child"; status=$?; [ -n "$stopped" ] && kill -0 "$child" 2>/dev/null; do :; done
    trap - INT TERM HUP
    [ -z "$stopped" ] || kill -s "$stopped" $$
    # Nobody closes the pipe, so what is there is read for a hundredth of a second.
    if read -r -t 0 <&"$words_said"; then IFS= read -r -d '' -t 0.01 said <&"$words_said"; fi
    printf %s "$said" >&2
    say_after "$status" "$said" "${1:-}" "$file"
    exit "$status"
}
