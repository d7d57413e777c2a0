# Read by scripts/gate and scripts/test: parts that end with a line of numbers, and the sums of these.
log=$(mktemp) || exit 1
failures=$(mktemp) || exit 1
passed=0
failed=0

# Runs a part and adds up the numbers of its last line, `N passed, M failed`; a part that has no such line failed.
part() {
    "$@" 2>&1 | tee "$log"
    numbers=$(tail -n 1 "$log" | sed -n 's/^\([a-z ]*: \)*\([0-9]*\) passed, \([0-9]*\) failed$/\2 \3/p')
    [ -n "$numbers" ] || numbers="0 1"
    passed=$((passed + ${numbers% *}))
    failed=$((failed + ${numbers#* }))
    [ "${numbers#* }" -eq 0 ] || { echo "The end of $*:"; tail -n 20 "$log"; } >> "$failures"
}

# Runs each example through a program.
check_examples() {
    as_written=0
    others=0
    for command in examples/*/command; do
        if scripts/check-example "$1" "${command%command}"; then
            as_written=$((as_written + 1))
        else
            others=$((others + 1))
        fi
    done
    echo "examples: $as_written passed, $others failed"
}

# Shows again what failed, for those who see the end alone, and the sums.
sum_up() {
    cat "$failures"
    echo "$passed passed, $failed failed"
    [ "$failed" -eq 0 ]
}
