# Functions for scripts that run two handlers, a and b, on this machine. A script that sources this file sets
#
#     program    the program as4
#     room       a folder for the files of both: END.toml (modes), END.journal, END.err (what END writes to its errors)
#     workers    optional: how many workers of each handler serve the other one
#     keep       optional: how many requests of one connection a handler answers
#
# and calls `stop_both` on each way out. END is a or b. a submits and b receives, by the mode `invoice`.
declare -A peer_port local_port pid=([a]='' [b]='')

# RETRIES PERIOD: starts both handlers, at ports that are free. A port that is taken is tried again with another.
start_both() {
    local tries
    for tries in {1..20}; do
        choose_ports
        write_modes a "$1" "$2" "${peer_port[b]}"
        write_modes b "$1" "$2" "${peer_port[a]}"
        start a
        start b
        if serves a && serves b; then return 0; fi
        stop_both
        [ "$(cat "$room/a.err")" = 'host fault' ] || [ "$(cat "$room/b.err")" = 'host fault' ] || break
        rm -f "$room"/[ab].journal*
    done
    echo "the handlers don't start:" >&2
    cat "$room/a.err" "$room/b.err" >&2
    return 1
}

# Four ports from 10,240 to 32,639, below those that most systems give to connections.
choose_ports() {
    local port=$((10240 + RANDOM % 22400))
    peer_port=([a]=$port [b]=$((port + 1)))
    local_port=([a]=$((port + 2)) [b]=$((port + 3)))
}

# END RETRIES PERIOD PORT: END's modes file. Documents go from acme at a to bolt at b.
write_modes() {
    cat > "$room/$1.toml" <<TOML
[[mode]]
name = "invoice"
from = { role = "seller", party = [ { id = "acme" } ] }
to = { role = "buyer", party = [ { id = "bolt" } ] }
service = "orders"
action = "invoice"
push = "http://127.0.0.1:$4/"
retries = $2
period = $3
TOML
}

# END: starts a handler in the background.
start() {
    : > "$room/$1.err"
    "$program" handler "$room/$1.toml" "$room/$1.journal" "http://127.0.0.1:${peer_port[$1]}/" "http://127.0.0.1:${local_port[$1]}/" \
        --workers "${workers:-4}" --keep "${keep:-1}" 2> "$room/$1.err" &
    pid[$1]=$!
}

# END: waits until the handler serves, for 20 s at most. 1 if it doesn't.
serves() {
    local line tries
    for tries in {1..1000}; do
        if read -r line < "$room/$1.err"; then [[ $line == serving* ]]; return; fi
        kill -0 "${pid[$1]}" 2> /dev/null || { sleep 0.02; [ -s "$room/$1.err" ] || return 1; }
        sleep 0.02
    done
    return 1
}

# END SIGNAL: ends a handler that runs.
stop() {
    [ -n "${pid[$1]}" ] || return 0
    kill -s "$2" "${pid[$1]}" 2> /dev/null
    wait "${pid[$1]}" 2> /dev/null
    pid[$1]=
}

stop_both() {
    stop a TERM
    stop b TERM
}

# Ends both handlers and audits their journals. 1 if one isn't right.
audit_both() {
    local end
    stop_both
    for end in a b; do
        "$program" audit "$room/$end.toml" "$room/$end.journal" > "$room/$end.audit" || return 1
        echo "journal of $end: $(tail -n 1 "$room/$end.audit")"
    done
}

# END TARGET: sends a GET request to the local service of a handler, and prints the body of the response.
ask() {
    local connection line
    exec {connection}<> "/dev/tcp/127.0.0.1/${local_port[$1]}" || return 1
    printf 'GET %s HTTP/1.1\r\nHost: 127.0.0.1\r\nConnection: close\r\n\r\n' "$2" >&"$connection"
    while read -r line <&"$connection" && [ "$line" != $'\r' ]; do :; done
    cat <&"$connection"
    exec {connection}>&-
}

# FILE SIZE: prints the document of SIZE bytes in a message file of one document. 1 if the file doesn't end with it.
document_of() {
    local media boundary end
    read -r media < "$1"
    boundary=${media#*boundary=\"}
    end=$'\r\n'--${boundary%%\"*}--$'\r\n'
    [ "$(tail -c $((${#end} + $2 + 4)) "$1" | head -c 4 | od -An -tx1)" = ' 0d 0a 0d 0a' ] || return 1
    [ "$(tail -c ${#end} "$1")" = "${end%$'\n'}" ] || return 1
    head -c -${#end} "$1" | tail -c "$2"
}
