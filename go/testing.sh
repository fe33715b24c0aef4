# What go/front/test, go/node/test and go/etcd/test share, which source it: counts of what passed and failed.
#
# A test that fails is run once more, with the other ones that failed alone: a busy machine can hold a process up for longer than a test waits. If it
# passes then, it counts as passed, and a line 'second try: NAME' says so.

go=$(dirname "${BASH_SOURCE[0]}")/go
log=$(mktemp)
trap 'rm -f "$log"' EXIT
passed=0 failed=0

# Counts one check, and shows what it said where it failed.
check() {
  local name=$1
  shift
  if "$@" >"$log" 2>&1; then
    passed=$((passed + 1))
  else
    failed=$((failed + 1))
    echo "failed: $name"
    cat "$log"
  fi
}

is_formatted() {
  test -z "$(gofmt -l "$@" | tee /dev/stderr)"
}

# The tests of a log that ended in a way, PASS or FAIL: each test of each package is one.
count() {
  grep -c -- "^ *--- $1: " "$log" || true
}

# What a log has of tests that failed.
show() {
  grep -v -- '^ *--- PASS: \|^=== ' "$log" || true
}

# Whether each package ended, and by its tests.
has_ended() {
  ! grep -q -- '^panic: \|^fatal error: \|^FAIL.*\[\(build\|setup\) failed\]' "$log"
}

# Tests packages within a time, one after the other, since some of their tests measure how long service takes.
check_packages() {
  local timeout=$1 status=0 names
  shift
  "$go" test -count=1 -p 1 -timeout "$timeout" -v "$@" >"$log" 2>&1 || status=$?
  passed=$((passed + $(count PASS)))
  grep -o -- 'left out: .*' "$log" | sort -u || true
  [ "$status" -ne 0 ] || return 0
  show
  names=$(sed -n 's/^--- FAIL: \([A-Za-z0-9_]*\) .*/\1/p' "$log" | sort -u | paste -sd '|')
  if [ -z "$names" ] || ! has_ended; then
    failed=$((failed + $(count FAIL) + 1))
    return 0
  fi
  status=0
  "$go" test -count=1 -p 1 -timeout "$timeout" -v -run "^($names)\$" "$@" >"$log" 2>&1 || status=$?
  passed=$((passed + $(count PASS)))
  if [ "$status" -eq 0 ]; then
    tr '|' '\n' <<<"$names" | sed 's/^/second try: /'
    return 0
  fi
  show
  failed=$((failed + $(count FAIL)))
  [ "$failed" -gt 0 ] || failed=1
}

# Says how many passed. The status is 0 only where none failed.
end() {
  echo "$passed passed, $failed failed"
  [ "$failed" -eq 0 ]
}
