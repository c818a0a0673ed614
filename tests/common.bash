# What ./demo, ./install and the scripts of tests/ share: which programs are proved here, a scratch folder, and checks of one line.
# It is sourced from the top of the repository, by bash.

PROGRAMS=(dpe_server dpe_client dpe_replay dpe_batch)

# Prints a crate's name and those of the libraries of this repository below it, out of crates.txt.
with_those_below() {
    awk -v wanted="$1" '
        sub(/#.*/, "") || 1 {
            if (split($0, part, ":") < 2) next
            split(part[1], name, " ")
            below[name[1]] = part[2]
        }
        function visit(crate,    names, count, at) {
            if (!(crate in below) || seen[crate]++) return
            print crate
            count = split(below[crate], names, " ")
            for (at = 1; at <= count; at++) visit(names[at])
        }
        END { visit(wanted) }' crates.txt
}

# Whether the program that `rt ci` made is here, and no file that its proof reads was changed, added or removed since: by the
# times of these files, of their folders, and of the program. Nothing but a proof by rt makes that file.
is_proved() {
    local program=crates/$1/out/$1 crate part
    local -a read=(crates.txt HANDLES)
    [ -x "$program" ] && [ -f crates.txt ] && [ -f HANDLES ] || return 1
    for crate in $(with_those_below "$1"); do
        [ -d "crates/$crate/src" ] || return 1
        for part in src specs proofs; do
            if [ -d "crates/$crate/$part" ]; then
                read+=("crates/$crate/$part")
            elif was_changed "$crate" "$program"; then
                return 1
            fi
        done
    done
    [ -z "$(find "${read[@]}" -newer "$program" -print -quit)" ]
}

# Whether anything was put in a crate's folder or taken out of it since the program was made, but for the folder `out` that
# rt makes there.
was_changed() {
    [ "crates/$1" -nt "$2" ] && [ "$(stat -c %Y "crates/$1")" != "$(stat -c %W "crates/$1/out" 2>/dev/null)" ]
}

# Makes the folder $scratch below TMPDIR, which is taken from the caller's folder, and has all that is started make its own
# folders in it. It is removed at the end of the script, and processes that still run by then are ended.
make_scratch() {
    failures=0 differences='' scratch=''
    trap clean EXIT
    trap 'exit 1' HUP INT PIPE TERM
    scratch=$({ cd "$OLDPWD" && cd "${TMPDIR:-/tmp}" && mktemp -d "$PWD/dpe.XXXXXXXX"; } 2>/dev/null)
    if [ -z "$scratch" ] || ! mkdir "$scratch/running"; then
        echo "${0##*/}: no scratch folder could be made: see TMPDIR" >&2
        exit 1
    fi
    export TMPDIR=$scratch
}

started() {
    : >"$scratch/running/$1"
}

ended() {
    rm -f "$scratch/running/$1"
}

# Ends what still runs, waits for at most ten seconds until it has ended, and removes the folder.
clean() {
    local pid tries=100
    [ -n "$scratch" ] || return
    for pid in $(ls "$scratch/running" 2>/dev/null); do
        kill "$pid" 2>/dev/null
        while kill -0 "$pid" 2>/dev/null && [ "$((tries -= 1))" -gt 0 ]; do sleep 0.1; done
    done
    rm -rf "$scratch"
}

# Notes a difference, where there is one: what it is of, what is wanted, what came.
want() {
    [ "$2" = "$3" ] || differences+="        $1: wanted '$2', and got '$3'"$'\n'
}

# Ends a check: prints its line, and behind a check that failed the differences.
held() {
    if [ -z "$differences" ]; then
        echo "  ok     $1"
    else
        echo "  WRONG  $1"
        printf '%s' "$differences" >&2
        failures=$((failures + 1))
    fi
    differences=
}

# The lines of a file in one.
joined() {
    tr '\n' ' ' <"$1"
}

# Runs one of the programs in $bin, for at most 120 seconds, with its output in the files out and err, and notes it where its
# status isn't the wanted one, or the end of what it says isn't as the status wants it.
run() {
    local wanted=$1 name=$2 status=0 last=
    shift 2
    timeout --foreground 120 "$bin/$name" "$@" >out 2>err || status=$?
    [ "$wanted" = 0 ] || last="$name: status $wanted"
    want "status of $name" "$wanted" "$status"
    want "last line of $name on standard error" "$last" "$(tail -n 1 err)"
}

# Starts the server over the file seed, and waits for at most ten seconds until the last door's socket is there.
serve() {
    local tries=100 door=${*: -1}
    timeout 240 "$bin/dpe_server" seed "$@" >summary 2>server.err &
    server=$!
    started "$server"
    until [ -S "${door#*:}" ] || [ "$tries" = 0 ]; do
        sleep 0.1
        tries=$((tries - 1))
    done
    sleep 0.1
}

# Waits until the server has ended, and notes it where its status or its summary isn't the wanted one.
served() {
    local status=0
    wait "$server" || status=$?
    ended "$server"
    want "status of dpe_server" "$1" "$status"
    want "summary" "$2" "$(joined summary)"
}

# A boot of six layers by the client over four sockets of the server, and the audit of the server's journal. It leaves seed,
# journal and the client's text, lines, in the present folder. $1: the script.
boot() {
    (umask 077 && head -c 32 /dev/urandom >seed)
    serve journal 1 8192 1 0:rom 1:tee 2:loader 3:kernel
    run 0 dpe_client "$1" rom tee loader kernel
    mv out lines
    want "codes" "0 0 0 0 0 0 0 0 0 0 0 17 0 0 17 " "$(awk '{ printf "%s ", $2 }' lines)"
    want "opened box" 736563726574 "$(awk '$1 == 11 { print $3 }' lines)"
    held "dpe_client: a boot script of six layers on four sockets; what was sealed comes back, and two spent handles are refused"
    served 0 "connections 4 commands 15 refused 2 full 0 cut 0 "
    held "dpe_server: it ends once each door has served its connection, and counts 15 commands, 2 of them refused"
    run 0 dpe_replay check seed journal
    want "verdict" "entries 15 refused 2 live 0 " "$(joined out)"
    held "dpe_replay: each reply of the journal, computed again from the seed, is the recorded one"
}
