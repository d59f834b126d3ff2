# What the checks of packages share: read by c/freeradius/check-package and c/hostapd/check-package, with `work` set to a folder
# before anything is tried.

# (within the copy it counts on)
passed=${PASSED:-0} failed=${FAILED:-0}

finish() {
    echo "package: $passed passed, $failed failed"
    [ "$failed" = 0 ]
    exit
}

pass_over() {
    echo "package: not run: $1"
    finish
}

# Says whether a command ends well; what it wrote is shown where it doesn't.
try() {
    named=$1
    shift
    if "$@" >"$work/said" 2>&1; then
        passed=$((passed + 1))
        echo "package: $named"
    else
        failed=$((failed + 1))
        echo "package: $named FAILED"
        tail -n 20 "$work/said" | sed 's/^/    /'
    fi
}
