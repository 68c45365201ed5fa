# A function for the steps of ./test whose script has tests of its own: tested NAME runs scripts/tests/NAME.py, and
# shows what it says only where it fails. To be sourced by bash in the repository's top.
tested() {
  local said
  said=$(python3 "scripts/tests/$1.py" 2>&1) && return
  printf '%s\n' "$said"
  echo "scripts/tests/$1.py: the tests of scripts/$1 fail; see the lines above" >&2
  return 1
}
