# Functions to build and run x86-64 programs in C and Rust, on x86-64 and on Arm; to be sourced by bash.
# They assume Debian's apt-get where something is missing. A function that fails has said why in $why.

arm() { [ "$(uname -m)" = aarch64 ]; }

# The kit's folder with the loader and the C library that its programs are linked with, as $tools.
find_tools() {
  local rt
  if [ -n "${RATTLE_HOME:-}" ]; then tools=$RATTLE_HOME
  else
    rt=$(command -v rt) || { why="the Rattle kit's command 'rt' is not on the PATH"; return 1; }
    tools=$(cd "$(dirname "$(readlink -f "$rt")")/.." && pwd)
  fi
  tools=$tools/toolchain
  [ -e "$tools/lib/ld-linux-x86-64.so.2" ] || { why="the Rattle kit has no loader for x86-64 programs"; return 1; }
}

# The emulator that runs x86-64 programs on Arm, as $qemu: Debian's. On x86-64 none is needed, and it is empty.
find_emulator() {
  qemu=
  arm || return 0
  qemu='qemu-x86_64-static'
  command -v "$qemu" >/dev/null 2>&1 || { why="there is no $qemu, which runs x86-64 programs here"; return 1; }
}

# Becomes a program that runs through the kit's loader, on Arm under the emulator.
exec_loaded() {
  local v
  for v in $(env | sed -n 's/^\(QEMU_[A-Z_]*\)=.*/\1/p'); do unset "$v"; done
  exec ${qemu:+"$qemu"} "$tools/lib/ld-linux-x86-64.so.2" --library-path "$tools/lib" "$@"
}

# Runs what have_c and have_rust built.
run_c() (if arm; then find_tools && find_emulator && exec_loaded "$@"; else exec "$@"; fi)
run_rust() (run_c "$@")

# Installs Debian packages.
install_packages() {
  local log status=0 options=(-o Acquire::http::Timeout=30 -o Acquire::Retries=1 -o DPkg::Lock::Timeout=120)
  command -v apt-get >/dev/null 2>&1 || { why="$* cannot be installed without apt-get"; return 1; }
  echo "installing Debian's packages: $*" >&2
  log=$(mktemp)
  {
    apt-get "${options[@]}" update &&
    DEBIAN_FRONTEND=noninteractive apt-get "${options[@]}" install -y --no-install-recommends "$@"
  } >"$log" 2>&1 </dev/null || status=1
  [ $status -eq 0 ] || why="Debian's packages $* cannot be installed here ($(grep '^E:' "$log" | tail -n 1))"
  rm -f "$log"
  return $status
}

# A C compiler for x86-64, as $cc.
have_c() {
  if arm; then cc=x86_64-linux-gnu-gcc; set -- gcc-x86-64-linux-gnu libc6-dev-amd64-cross qemu-user-static
  else cc=gcc; set -- gcc libc6-dev; fi
  c_links && find_emulator || install_packages "$@" || return 1
  c_links || { why="$cc is there but links no C program"; return 1; }
}

c_links() {
  local out status=0
  command -v "$cc" >/dev/null 2>&1 || return 1
  out=$(mktemp)
  printf '#include <stdio.h>\nint main(void) { return puts(""); }\n' | "$cc" -x c - -o "$out" 2>/dev/null || status=1
  rm -f "$out"
  return $status
}

# A Rust compiler with the standard library for x86-64, as $rustc; needs have_c first, whose compiler is its linker.
have_rust() {
  find_rust && find_emulator && return
  if ! arm; then install_packages rustc-web || return 1
  else
    local added=
    if ! dpkg --print-foreign-architectures 2>/dev/null | grep -qx amd64; then
      dpkg --add-architecture amd64 2>/dev/null || { why="Debian's amd64 packages cannot be added here"; return 1; }
      added=1
    fi
    if ! install_packages rustc-web libstd-rust-web-dev:amd64 qemu-user-static; then
      [ -z "$added" ] || dpkg --remove-architecture amd64 2>/dev/null
      return 1
    fi
  fi
  find_rust && find_emulator && return
  why="there is still no rustc with a standard library for x86-64, or no emulator"
  return 1
}

find_rust() {
  local folder
  for rustc in rustc /usr/bin/rustc; do
    folder=$($rustc --print target-libdir --target x86_64-unknown-linux-gnu 2>/dev/null) || continue
    compgen -G "$folder/libstd-*.rlib" >/dev/null && return
  done
  return 1
}

# Compiles Rust for x86-64: the words are rustc's.
build_rust() { "$rustc" -O --edition 2021 --target x86_64-unknown-linux-gnu -C linker="$cc" "$@"; }
