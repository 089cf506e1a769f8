# Steps and their counts, for a script whose last line is 'N passed, M failed'. The script sets `parts`, how many long parts it has,
# and `log`, a file for what the last command printed, before it reads this.
: "${parts:?}" "${log:?}"
passed=0
failed=0
part=0

# Says which long part comes.
part() {
    part=$((part + 1))
    echo "== part $part of $parts: $*"
}

# A command that has no count of its own: it passes where its exit status is 0.
step() {
    local name=$1
    shift
    if "$@" >"$log" 2>&1; then
        passed=$((passed + 1))
        echo "ok      $name"
    else
        failed=$((failed + 1))
        echo "FAILED  $name"
        tail -n 40 "$log"
        return 1
    fi
}

# A command whose last line is 'N passed, M failed': its figures are added.
counted() {
    "$@" 2>&1 | tee "$log"
    local status=${PIPESTATUS[0]} p f
    if tail -n 1 "$log" | grep -qE '^[0-9]+ passed, [0-9]+ failed$'; then
        read -r p _ f _ <<<"$(tail -n 1 "$log" | tr -d ',')"
        passed=$((passed + p))
        failed=$((failed + f))
        if [ "$status" -ne 0 ] && [ "$f" -eq 0 ]; then failed=$((failed + 1)); fi
    else
        echo "FAILED  $1 gave no count (exit status $status)"
        failed=$((failed + 1))
    fi
}

# The last line, and an exit status of 0 exactly where nothing failed.
finish() {
    echo "$passed passed, $failed failed"
    [ "$failed" -eq 0 ]
}
