#!/usr/bin/env bats
# ./run with what is in dist/: at once where it is of the sources, and never where it is not.

load setup

# A tree with dist/ and nothing built, a `cargo` that only says that it was called, and no kit.
setup() {
  cd "$BATS_TEST_TMPDIR" && mkdir -p made/bin made/rust made/crates
  cp -r "$house/run" "$house/scripts" "$house/crates.txt" "$house/kit.txt" "$house/dist" made
  for crate in $(crates_below needlevale needlevale_c); do
    mkdir "made/crates/$crate" && cp -r "$house/crates/$crate/src" "made/crates/$crate"
  done
  put_cargo 'echo "cargo was called" >&2; exit 1'
  cp "$house/examples/worked/table.bin" .
}

put_cargo() { printf '#!/bin/sh\n%s\n' "$1" >made/bin/cargo && chmod +x made/bin/cargo; }

asks() { env -u RATTLE_HOME PATH="$PWD/made/bin:/usr/bin:/bin" made/run "$@"; }

# What ./run says first where it must build the command line.
building="run: building the command line with Debian's Rust packages: about a minute"

@test "dist/ is whole and of these sources" {
  "$house/scripts/dist" check
  made/scripts/dist check
  (cd made/dist && sha256sum --strict --status -c SHA256SUMS)
}

@test "a plain question is answered at once, without kit and cargo, in the command line's words" {
  says "$(cat "$house/examples/worked/answer.txt")" asks best table.bin --class 2
  local count=0 text class
  for text in "$house"/examples/tables/*.txt; do
    needlevale table make "$text" -o "table $count.bin"
    for class in 0 2; do
      for words in "best" "plain --sort 0" "variants" "variants -n 1"; do
        # shellcheck disable=SC2086
        says "$(needlevale $words --class $class "table $count.bin")" asks $words --class $class "table $count.bin"
      done
    done
    count=$((count + 1))
  done
  [ "$count" -ge 3 ]
  [ ! -e made/rust/target ] && [ ! -e made/target ]
}

@test "what is no plain question, or is refused, is left to the command line" {
  for words in "best table.bin --class 3" "best table.bin --class 512" "best table.bin" "best table.bin --class ten" \
    "best table.bin --class 2 --json" "best table.bin --class 2 -n 1" "best table.bin --class 2 --class 2" \
    "best gone.bin --class 2" "best $house/examples/tables/sharing.txt --class 2" "variants table.bin --class 2 -n 256" \
    "best table.bin --class" "best table.bin table.bin --class 2" "stats table.bin --class 2" "--version"; do
    # shellcheck disable=SC2086
    run -4 asks $words
    # A compiler that is elsewhere than in /usr/bin is not seen here, and Debian's is installed the first time.
    mapfile -t lines < <(printf '%s\n' "${lines[@]}" | grep -v "^installing Debian's packages: ")
    [ "${lines[0]}" = "$building" ] && [ "${lines[1]}" = "cargo was called" ] && [ "${#lines[@]}" -eq 3 ] ||
      { echo "'$words': $output"; return 1; }
  done
}

@test "the command line is linked with dist's library, and nothing is proved" {
  real=$program
  put_cargo "cp \"\$NEEDLEVALE_LIBRARY/libneedlevale_c.a\" '$PWD/linked' &&
    mkdir -p target/$triple/release && cp '$real' target/$triple/release"
  run -0 --separate-stderr asks --version
  [ "$output" = "$(needlevale --version)" ] && [ "$stderr" = "$building" ]
  cmp linked "$house/dist/libneedlevale_c.a"
  put_cargo 'exit 1'
  says "$(needlevale --version)" asks --version
}

@test "what is in dist/ is not used where it is of other sources or not whole" {
  missing="run: the library is not built of these sources, and the Rattle kit's 'rt', which builds it,"
  missing+=" is not on the PATH"
  cp -r made whole
  for fault in "echo '// A line more.' >>crates/needlevale_c/src/lib.rt" "printf x >>dist/libneedlevale_c.a" \
    "printf x >>dist/needlevale-core" "sed -i 's/^[0-9a-f]/x/' dist/SHA256SUMS" "rm dist/IDENTITY"; do
    rm -rf made && cp -r whole made && (cd made && eval "$fault")
    run -4 asks best table.bin --class 2
    [ "${lines[-1]}" = "$missing" ] || { echo "$fault: $output"; return 1; }
    [[ "${lines[0]}" = "run: proving and building the library from these sources, of which dist/ is not, "*" crates: "* ]]
  done
}
