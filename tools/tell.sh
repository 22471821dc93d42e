# tell.sh: sourced by every test script, so that all of them count and speak alike.
passed=0 failed=0 skipped=0

# tell NAME STATUS: one line for each test.
tell() {
    if [ "$2" -eq 0 ]; then
        printf 'ok: %s\n' "$1"
        passed=$((passed + 1))
    else
        printf 'FAILED: %s\n' "$1"
        failed=$((failed + 1))
    fi
}

# skip NAME WHY: one line, and one in the sum, for what cannot be tested here, be it one test or a whole suite.
skip() {
    printf 'SKIPPED: %s: %s\n' "$1" "$2"
    skipped=$((skipped + 1))
}

# total: the last line. Its status is 0 where nothing failed. (What a suite leaves in its folder, $work, has no links: rt ci lets none be in the project.)
total() {
    [ ! -d "${work:-}" ] || find "$work" -type l -delete
    printf '%s passed, %s failed' "$passed" "$failed"
    if [ "$skipped" -gt 0 ]; then printf ', %s skipped' "$skipped"; fi
    printf '\n'
    [ "$failed" -eq 0 ]
}

# status_due FILE: the exit status of a program that writes this file: 1 where its last line says bad or long.
status_due() {
    if tail -n 1 "$1" | grep -qaE '^(bad|long)'; then echo 1; else echo 0; fi
}
