# shellcheck shell=bash
# Functions that build and start the command line of rust/, on x86-64 and on Arm; to be sourced by bash, after
# scripts/x86-64.sh, with the repository's folder as $house. A function that fails has said why in $why.
#
# A stamp beside the library and beside the program tells of which sources it was made: what is older or foreign is built
# again, and never run. The library is the one that was built here, or dist's, which scripts/dist holds to the sources.
#
# $cc and $rustc are set by scripts/x86-64.sh, and $why is read by who calls:
# shellcheck disable=SC2034,SC2154

: "${house:?the folder of the repository}"
triple=x86_64-unknown-linux-gnu
library=$house/crates/needlevale_c/out/libneedlevale_c.a
core=$house/crates/needlevale/out/needlevale
program=$house/rust/target/$triple/release/needlevale

# One number for all files of the given folders and files, by name and content, but for what is built there.
sum_of() (
  cd "$house" && find "$@" \( -name target -o -regex 'crates/[^/]*/out' \) -prune -o -type f ! -name Cargo.lock -print0 |
    LC_ALL=C sort -z | xargs -0 sha256sum | sha256sum
)

library_stamp() { sum_of crates crates.txt && sha256sum <"$library"; }
program_stamp() { sum_of rust && sha256sum <"$library" && sha256sum <"$program"; }

# Whether nothing of the given files and folders, entries that came or went among it, has changed since the stamp was
# written: by the system's own time of change, which no copying sets back. A crate's own folder, whose time tells of the
# out/ in it, is not asked, but all that it holds beside.
untouched() {
  local stamp=$1
  shift
  [ -z "$(find "$@" \( -name target -o -regex '.*/crates/[^/]*/out' \) -prune -o -newercm "$stamp" ! -name Cargo.lock \
    ! \( -type d -regex '.*/crates/[^/]*' \) -print -quit 2>&1)" ]
}

# Whether the library and the program are those of the sources: nothing was touched, or all is as the stamp says.
library_fresh() {
  local stamp=$library.stamp
  [ -r "$stamp" ] && [ -r "$library" ] || return 1
  untouched "$stamp" "$house/crates" "$house/crates.txt" "$library" && return
  [ "$(library_stamp)" = "$(cat "$stamp")" ] && touch "$stamp"
}

# $library is then one of these sources: what was built here, or dist's.
find_library() {
  library_fresh && return
  "$house/scripts/dist" check 2>/dev/null || return 1
  library=$house/dist/libneedlevale_c.a
}

program_fresh() {
  local stamp=$program.stamp
  [ -r "$stamp" ] && [ -x "$program" ] && [ -r "$library" ] || return 1
  untouched "$stamp" "$house/rust" "$library" "$program" && return
  [ "$(program_stamp)" = "$(cat "$stamp")" ] && touch "$stamp"
}

# The given crates and those that they stand on, in the order of crates.txt, which has the lowest first.
crates_below() {
  awk -v wanted="$*" '
    { sub(/#.*/, ""); line[NR] = $0 }
    END {
      n = split(wanted, word, " ")
      for (j = 1; j <= n; j++) need[word[j]] = 1
      for (i = NR; i > 0; i--) {
        n = split(line[i], word, /[: ]+/)
        if (word[1] == "" || !(word[1] in need)) continue
        name[i] = word[1]
        for (j = 2; j <= n; j++) need[word[j]] = 1
      }
      for (i = 1; i <= NR; i++) if (i in name) print name[i]
    }' "$house/crates.txt"
}

have_rt() { command -v rt >/dev/null 2>&1 || { why="the Rattle kit's 'rt' is not on the PATH"; return 1; }; }

# rt on a crate: its name, and then rt's words. What it says goes to a file; on a terminal one line tells which crate is
# proved.
tell_rt() {
  local log=$house/target/library.log crate=$1 crates line done=0 status
  shift
  crates=$(crates_below "$crate" | wc -l)
  mkdir -p "$house/target"
  (cd "$house/crates/$crate" && rt "$@" 2>&1) </dev/null | tee "$log" | while read -r line; do
    [[ $line =~ ^crate\ ([a-z0-9_]+):\ modules ]] || continue
    done=$((done + 1))
    if [ -t 2 ]; then printf '\r\033[K%d of %d: %s' "$done" "$crates" "${BASH_REMATCH[1]}" >&2; fi
  done
  status=${PIPESTATUS[0]}
  if [ -t 2 ]; then printf '\r\033[K' >&2; fi
  [ "$status" -eq 0 ] && return
  tail -n 5 "$log" >&2
  why="'rt $*' in crates/$crate failed; all that it says is in $log"
  return 1
}

# The proved library of the sources as they are: over what `rt ci` has just left, or else by `rt lib`.
build_library() {
  have_rt ||
    { why="the library is not built of these sources, and the Rattle kit's 'rt', which builds it, is not on the PATH"; return 1; }
  rm -f "$library.stamp" "$library"
  mkdir -p "$house/target"
  if "$house/scripts/library-after-ci" >"$house/target/library.log" 2>&1 && [ -r "$library" ]; then
    library_stamp >"$library.stamp"
    return
  fi
  if ! tell_rt needlevale_c lib || [ ! -r "$library" ]; then
    why="the library could not be proved and built; all that rt says of it is in $house/target/library.log"
    return 1
  fi
  library_stamp >"$library.stamp"
}

# Whether the program, $core, was built after the last change of the sources, by `rt ci` or `rt run`.
core_fresh() { [ -x "$core" ] && untouched "$core" "$house/crates" "$house/crates.txt"; }

# The proved program of the sources as they are, $core. `rt run` builds it and then asks it nothing: what the program
# answers does not matter, and rt's own stamp, new beside it, tells that it was built.
build_core() {
  have_rt || return 1
  rm -f "$core.stamp"
  tell_rt needlevale run
  [ -x "$core" ] && [ -s "$core.stamp" ] && return
  why="the program could not be proved and built; all that rt says of it is in $house/target/library.log"
  return 1
}

# Debian's packages for the command line: cargo, and the crates that rust/ names.
have_cargo() {
  local missing=() crate
  have_c && have_rust || return 1
  command -v cargo >/dev/null 2>&1 || missing+=(cargo-web)
  for crate in clap clap_complete libc serde_json; do
    compgen -G "/usr/share/cargo/registry/$crate-[0-9]*" >/dev/null || missing+=("librust-${crate//_/-}-dev")
  done
  [ ${#missing[@]} -eq 0 ] || install_packages "${missing[@]}"
}

# On Arm, what runs an x86-64 program: Debian's emulator, and the loader beside Debian's own library.
emulation() {
  local lib=/usr/x86_64-linux-gnu/lib
  arm || return 0
  printf '%s\n' qemu-x86_64-static $lib/ld-linux-x86-64.so.2 --library-path $lib
}

# cargo for x86-64 in rust/: the words are cargo's. Needs have_cargo first.
run_cargo() {
  (
    cd "$house/rust" || exit 1
    export CARGO_TARGET_X86_64_UNKNOWN_LINUX_GNU_LINKER=$cc RUSTC=$rustc CARGO_BUILD_TARGET=$triple
    export NEEDLEVALE_LIBRARY=${library%/*}
    case $rustc in /*) export RUSTDOC=${rustc%rustc}rustdoc ;; esac
    if arm; then
      CARGO_TARGET_X86_64_UNKNOWN_LINUX_GNU_RUNNER=$(emulation | paste -sd ' ')
      export CARGO_TARGET_X86_64_UNKNOWN_LINUX_GNU_RUNNER
    fi
    exec cargo "$@"
  )
}

build_program() {
  have_cargo || return 1
  rm -f "$program.stamp"
  run_cargo build --release --quiet || { why="cargo could not build the command line; see the lines above"; return 1; }
  program_stamp >"$program.stamp"
}

# The proved program alone, dist/needlevale-core: its input in, its answer out. On Arm Debian's emulator runs it. Assumes
# that scripts/dist has checked it.
run_core() (
  mapfile -t emulator < <(emulation)
  exec "${emulator[@]}" "$house/dist/needlevale-core"
)

# A number in digits, at most so large.
number() { [[ $1 =~ ^(0|[1-9][0-9]{0,2})$ ]] && [ "$1" -le "$2" ]; }

# Answers by dist's program alone, which needs no compiler: best, plain or variants of a class, by numbers, in a table
# file. Fails, with nothing said, where the words are others, where the program cannot be run and where it refuses: the
# command line says all that better. For where that is not built yet; what is said is the same.
answer_at_once() {
  local mode table= sort=0 class= n=0 bits said
  case ${1:-} in best) mode=0 ;; plain) mode=2 ;; variants) mode=1 n=255 ;; *) return 1 ;; esac
  shift
  while [ $# -gt 0 ]; do
    case $mode$1 in
      ?--class) number "${2:-}" 511 && [ -z "$class" ] || return 1; class=$2; shift ;;
      ?--sort) number "${2:-}" 30 || return 1; sort=$2; shift ;;
      1-n) number "${2:-}" 255 || return 1; n=$2; shift ;;
      ?-*) return 1 ;;
      *) [ -z "$table" ] || return 1; table=$1 ;;
    esac
    shift
  done
  [ -n "$class" ] && [ -f "$table" ] && "$house/scripts/dist" check 2>/dev/null || return 1
  bits=$((mode << 22 | sort << 17 | class << 8 | n))
  said=$(mktemp) || return 1
  # shellcheck disable=SC2059
  { printf "$(printf '\\x%02x' $((bits >> 16)) $((bits >> 8 & 255)) $((bits & 255)))" && cat "$table"; } |
    run_core >"$said" 2>/dev/null && ! grep -q '^refused' "$said" || { rm -f "$said"; return 1; }
  cat "$said" || { rm -f "$said"; exit 4; }
  rm -f "$said"
}

# Becomes the command line, in the caller's folder.
exec_program() {
  local -a emulator=()
  mapfile -t emulator < <(emulation)
  if arm && ! command -v "${emulator[0]}" >/dev/null 2>&1; then
    why="Debian's qemu-user-static, which runs x86-64 programs on this machine, is not there"
    return 1
  fi
  exec "${emulator[@]}" "$program" "$@"
}
