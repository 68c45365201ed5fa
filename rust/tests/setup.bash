# shellcheck shell=bash
# For the tests of bats: the command line as built, the repository's folder, and a folder for each test.
bats_require_minimum_version 1.5.0
house=$(cd "$BATS_TEST_DIRNAME/../.." && pwd)
. "$house/scripts/x86-64.sh"
. "$house/scripts/command-line.sh"
mapfile -t emulator < <(emulation)

needlevale() { "${emulator[@]}" "$program" "$@"; }

# Runs a command that must end with a status, and say nothing on standard output and one sentence on standard error.
stops() {
  local wanted=$1 sentence=$2 status=0 said told
  shift 2
  said=$("$@" 2>"$BATS_TEST_TMPDIR/told") || status=$?
  told=$(cat "$BATS_TEST_TMPDIR/told")
  if [ "$status" -ne "$wanted" ] || [ -n "$said" ] || [ "$told" != "needlevale: $sentence" ]; then
    echo "'$*' ended with $status, not $wanted, and said '$told', not 'needlevale: $sentence', on standard output '$said'"
    return 1
  fi
}

# Runs a command that must answer, with exactly this on standard output and nothing on standard error.
says() {
  local text=$1 status=0 said
  shift
  said=$("$@" 2>"$BATS_TEST_TMPDIR/told") || status=$?
  if [ "$status" -ne 0 ] || [ -s "$BATS_TEST_TMPDIR/told" ] || [ "$said" != "$text" ]; then
    echo "'$*' ended with $status and said: $said $(cat "$BATS_TEST_TMPDIR/told")"
    return 1
  fi
}
