# Runs the proved program `name` on the given words. Proves and builds it first where it is missing or older than a source.
# Sourced with `root` set to the repository's folder.
. "$root/scripts/program.sh"
logs=$root/crates/$name/out/logs

# What the proving is at: crates that are done, and functions of the crate that moved last.
progress() {
    newest=$(ls -t "$logs"/*.log 2>/dev/null | head -n 1)
    count=$(grep '^checked ' "$newest" 2>/dev/null | tail -n 1 | sed -n 's/.*, \([0-9]* of [0-9]*\)$/, \1 functions/p')
    printf '%s: proving: %s of %s crates done, at %s%s, %s minutes' "$name" "$(ls "$logs" | grep -c '\.done$')" "$total" \
        "$(basename "${newest:-start}" .log)" "$count" "$((($(date +%s) - began) / 60))"
}

# Waits for the proving, and shows what it is at: on a line that renews itself, or once a minute.
watch() {
    shown=0
    while kill -0 "$job" 2>/dev/null; do
        now=$(date +%s)
        if [ -t 2 ]; then
            printf '\r%s\033[K' "$(progress)" >&2
        elif [ "$((now - shown))" -ge 60 ]; then
            printf '%s\n' "$(progress)" >&2
            shown=$now
        fi
        sleep 1
    done
    if [ -t 2 ]; then printf '\r\033[K' >&2; fi
    wait "$job"
}

build() {
    rm -rf "$logs"
    mkdir -p "$logs"
    began=$(date +%s)
    total=$("$root/scripts/prove.py" "$name" --list | wc -l)
    # In a session of its own, so that an interrupt ends all of it.
    setsid "$root/scripts/prove.py" "$name" "$logs" 2>"$logs/start.log" &
    job=$!
    trap 'kill -- -"$job" 2>/dev/null; exit 130' INT TERM
    watch
    status=$?
    trap - INT TERM
    return "$status"
}

# Says which crate isn't proved, and the end of its log.
explain() {
    for log in $(ls -t "$logs"/*.log); do
        if [ ! -e "${log%.log}.done" ]; then
            echo "$name: the program isn't proved; the end of ${log#"$root"/}:" >&2
            tail -n 20 "$log" >&2
            return
        fi
    done
}

if ! is_current; then
    if ! build; then
        explain
        exit 70
    fi
    touch -c "$program"
fi
exec "$program" "$@"
