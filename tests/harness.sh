# shellcheck shell=bash
# What the tests in bash share: a test sources it, tells its checks, and ends by `last_line`. If TLX_TOLD names a file, each check is a line of
# JSON in it too, as tests/harness.py writes it.
passed=0
failed=0
test_name=$(cd "$(dirname "$0")" && pwd)/$(basename "$0")
test_name=${test_name#"$(cd "$(dirname "${BASH_SOURCE[0]}")/.." && pwd)"/}

# A word as a text of JSON.
json_text() {
  local word=${1//\\/\\\\}
  word=${word//\"/\\\"}
  printf '"%s"' "${word//[[:cntrl:]]/ }"
}

# A check by its name, and the status of what it is: it holds if that is 0. If it does not hold, the name goes to standard error, with why.
tell() {
  local holds=true why=
  if [ "$2" -eq 0 ]; then
    passed=$((passed + 1))
  else
    holds=false
    why=${3:-}
    failed=$((failed + 1))
    echo "$test_name: $1${why:+: $why}" >&2
  fi
  [ -z "${TLX_TOLD:-}" ] ||
    printf '{"test": %s, "name": %s, "holds": %s, "why": %s}\n' "$(json_text "$test_name")" "$(json_text "$1")" "$holds" "$(json_text "$why")" >>"$TLX_TOLD"
}

# Adds the counts of a part whose output is in a file and ends in 'N passed, M failed'. One that ends otherwise has failed once. Then it tells
# whether the part's status is that of its counts: the name of the part, its status, the file.
add_part() {
  local p f
  read -r p f <<<"$(tail -n 1 "$3" | sed -nE 's/^([0-9]+) passed, ([0-9]+) failed$/\1 \2/p')"
  passed=$((passed + ${p:-0}))
  failed=$((failed + ${f:-1}))
  [ "$2" -eq "$((${f:-1} > 0))" ]
  tell "$1 has the status of its counts" $? "status $2"
}

# Prints the counts. Its status is that of the test.
last_line() {
  echo "$passed passed, $failed failed"
  [ "$failed" -eq 0 ]
}
