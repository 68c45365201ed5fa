#!/usr/bin/env bats
# table make and show, import, export, draw, stats, bench, and the rest of the commands.

load setup
tables=$BATS_TEST_DIRNAME/../../examples/tables

setup() { cd "$BATS_TEST_TMPDIR" && cp "$house/examples/worked/table.bin" .; }

@test "make and show go both ways, exactly" {
  needlevale table show table.bin >shown.txt
  needlevale table make shown.txt -o again.bin
  cmp table.bin again.bin
  needlevale table make - -o again.bin <shown.txt
  cmp table.bin again.bin
  for text in "$tables"/*.txt; do
    needlevale table make "$text" -o first.bin
    needlevale table show first.bin | needlevale table make - -o second.bin
    cmp first.bin second.bin
    needlevale table show "$text" >named.txt
    needlevale table make named.txt -o second.bin
    cmp first.bin second.bin
    says "$(cat named.txt)" needlevale table show named.txt
  done
}

@test "a wrong text is told with its line and column, and nothing is written" {
  printf 'needlevale table 1\nsort M eq 1\nfunction Leaf () -> M\nrow 1 = (Leaf)\n' >wrong.txt
  stops 3 "wrong.txt:4:5: class 1, but M has 1 class" needlevale table make wrong.txt -o made.bin
  [ ! -e made.bin ]
  stops 3 "standard input:4:5: class 1, but M has 1 class" needlevale table make - -o made.bin <wrong.txt
  stops 3 "table.bin: this is a table file already, not its text form" needlevale table make table.bin -o made.bin
  printf 'needlevale table 1\n; ok\n\377' >bytes.txt
  stops 3 "bytes.txt:3:1: what stands here is no UTF-8 text" needlevale table make bytes.txt -o made.bin
  stops 4 "'gone/made.bin' cannot be written: No such file or directory" needlevale table make "$tables/sharing.txt" -o gone/made.bin
  stops 4 "'/dev/full' cannot be written: No space left on device" needlevale table make "$tables/sharing.txt" -o /dev/full
}

@test "a refused file is shown up to its fault, with field, bit and value" {
  printf '\200' | dd of=table.bin bs=1 seek=46 conv=notrunc status=none
  run -3 --separate-stderr needlevale table show table.bin
  [ "$stderr" = "needlevale: table.bin: refused 8, BadValue: row 2, output cell: class 3, but sort 0 has 3 classes (bit 360)" ]
  [ "${lines[-2]}" = "row 1 = (Add 0 0)" ]
  [ "${lines[-1]}" = "; here the file's fault stands: refused 8" ]
}

@test "JSON comes in, goes out, and comes in again with the same answer" {
  needlevale import "$tables/distribute.json" -o graph.bin
  says "$(printf 'best 7 4 2\n\n(Mul (Num 5) (x))')" needlevale best graph.bin --class 6
  needlevale import "$tables/distribute.json" -o graph.txt
  says "$(printf 'best 7 4 2\n\n(Mul (Num 5) (x))')" needlevale best graph.txt
  needlevale export graph.txt -o graph.json
  says "$(printf 'best 7 4 2\n\n(Mul (Num 5) (x))')" needlevale best <(needlevale import graph.json)
  for text in arithmetic replay-guard sharing; do
    needlevale export "$tables/$text.txt" | needlevale import - >back.txt
    [ "$(needlevale plain back.txt | tail -n 1)" = "$(needlevale plain "$tables/$text.txt" | tail -n 1)" ]
  done
}

@test "what does not map is counted before anything is written" {
  echo '{"nodes":{"a":{"op":"a","eclass":"0","cost":1.5},"b":{"op":"b","eclass":"1","cost":-1}}}' >costs.json
  stops 3 "costs.json: nothing is written, because 2 nodes have a cost that is no whole number from 0 to 2^64-1, such as 1.5 (--scale multiplies costs)" \
    needlevale import costs.json -o out.bin
  [ ! -e out.bin ]
  echo '{"nodes":{"a":{"op":"a","eclass":"0","cost":1.5}},"root_eclasses":["0"]}' >half.json
  says "$(printf 'best 3 1 2\n\n(a)')" needlevale best <(needlevale import half.json --scale 2)
  for number in $(seq 600); do echo "\"n$number\":{\"op\":\"a\",\"eclass\":\"$number\"},\"m$number\":{\"op\":\"b\",\"eclass\":\"$number\"}"; done |
    paste -sd, | sed 's/.*/{"nodes":{&}}/' >large.json
  stops 3 "large.json: nothing is written, because there are 600 classes, and a table has at most 512; there are 1200 rows, and a table has at most 1024" \
    needlevale import large.json
  echo '{"nodes":{"a":{"op":"a","eclass":"0","children":["b"]}}}' >child.json
  stops 3 'child.json: node "a" has the child "b", which is no node' needlevale import child.json
  echo '{"nodes":' >cut.json
  stops 3 "cut.json:2:0: this is no JSON: EOF while parsing a value" needlevale import cut.json
  printf 'needlevale table 1\nsort M eq 2\nfunction F (M) -> M\nfunction G () -> M hidden\nrow 0 = (F 1)\nrow 0 = (G)\n' >odd.txt
  stops 3 "odd.txt: nothing is written, because 1 rows are of unextractable or hidden functions, which JSON has not; 1 rows name a class without a row, and JSON's children are nodes (--leave-out leaves them out)" \
    needlevale export odd.txt
}

@test "an op with several costs, and one that is no name, become functions of their own" {
  echo '{"nodes":{"a":{"op":"a b","eclass":"0"},"b":{"op":"f","children":["a"],"eclass":"1"},"c":{"op":"f","children":["a"],"eclass":"1","cost":3}}}' >ops.json
  run -0 --separate-stderr needlevale import ops.json
  [[ "$stderr" = "needlevale: ops.json: 2 functions have a name that is not the node's op: "* ]]
  [[ "$output" = *"function a_b () -> E"*"function f (E) -> E"*"function f~2 (E) -> E cost 3"* ]]
}

@test "a picture has a frame a class, a box a row, and the chosen rows marked" {
  needlevale draw "$tables/arithmetic.txt" >arithmetic.dot
  [ "$(grep -c 'subgraph cluster_' arithmetic.dot)" -eq 4 ]
  [ "$(grep -cE '^ +r[0-9]+ \[label=' arithmetic.dot)" -eq 9 ]
  [ "$(grep -c '#d8f0e4' arithmetic.dot)" -eq 3 ]
  needlevale draw "$tables/sharing.txt" --term >term.dot
  [ "$(grep -c 'used 2 times' term.dot)" -eq 4 ]
  grep -q 'x16 of sort Word: 46 as a tree, 9 as a graph' term.dot
  stops 2 "a term is drawn of a class: say --class C" needlevale draw table.bin --term
  printf 'needlevale table 1\nsort M eq 1\nfunction \\N<&> (M) -> M\nrow 0 = (\\N<&> 0)\nroot M 0\n' >odd.txt
  needlevale draw odd.txt | grep -qF '\\N&lt;&amp;&gt; <FONT'
  stops 1 "odd.txt: refused 11, NoTerm: no term derives 0 of sort M" needlevale draw odd.txt --term
}

@test "a picture in SVG comes from Graphviz, and its absence is said" {
  if command -v dot >/dev/null; then
    needlevale draw table.bin --class 2 -o table.svg
    grep -q '<svg' table.svg
  fi
  run -4 env PATH=/nowhere "$(command -v "${emulator[0]:-env}")" "${emulator[@]:1}" "$program" draw table.bin -o none.svg
  [ "$output" = "needlevale: Graphviz's dot, which makes .svg, cannot be run: No such file or directory (Debian's graphviz)" ]
  [ ! -e none.svg ]
}

@test "stats tell the proved from the computed, and that both agree" {
  needlevale stats "$tables/sharing.txt" >stats
  grep -qx 'cost        46 as a tree, proved least' stats
  grep -qx 'graph cost  9 with shared parts paid once, computed' stats
  grep -qx 'compared    the computed term is the proved answer.s' stats
  needlevale stats "$tables/sharing.txt" --json | grep -q '"computed":{"graph_cost":"9","tree_size":"31","depth":5},"differs":null'
  stops 3 "table.bin: refused 10, BadRoot: class 3 is asked for, and s0 has 3" needlevale stats table.bin --class 3
}

@test "bench asks a folder of tables and JSON, one line each" {
  run -0 needlevale bench "$tables" --rounds 1
  [ "${#lines[@]}" -eq 5 ]
  [[ "${lines[2]}" =~ ^distribute.json\ +7\ +10\ +7\ +7\ +2\  ]]
  [[ "${lines[4]}" =~ ^sharing.txt\ +5\ +6\ +46\ +9\ +2\  ]]
  mkdir mixed && cp "$tables/sharing.txt" mixed && echo x >mixed/wrong.bin
  run -3 needlevale bench mixed --rounds 1 --json
  [[ "$output" = *'"name":"sharing.txt"'*'"tree":46,"dag":"9"'* && "$output" = *"needlevale: 1 of 2 files gave no answer" ]]
  stops 4 "'gone' cannot be read: No such file or directory" needlevale bench gone
}

@test "help, version, completions and the manual" {
  says "needlevale 0.2.0" needlevale --version
  needlevale --help | grep -q '^Usage: needlevale <COMMAND>'
  for shell in bash zsh fish; do needlevale completions $shell | grep -q leave-out; done
  needlevale completions bash >completions.bash
  bash -n completions.bash
  needlevale man >needlevale.1
  for word in best plain variants 'table make' 'table show' import export draw stats bench completions man; do
    grep -q "^.B needlevale $word" needlevale.1 || { echo "the manual has no '$word'"; return 1; }
  done
  for command in best variants 'table make' import export draw stats bench; do
    # shellcheck disable=SC2086
    for option in $(needlevale $command --help | grep -oE '^ +(-[a-z]|--[a-z-]+)' | grep -vE -- '--?h'); do
      grep -qF -- "${option//-/\\-}" needlevale.1 || { echo "the manual has no '$option'"; return 1; }
    done
  done
}

@test "./run works through a symlink and from any folder" {
  ln -s "$house/run" needle
  says "$(cat "$house/examples/worked/answer.txt")" ./needle best table.bin --class 2
}

@test "./run runs no library and no program that is not of the sources" {
  mkdir -p made/crates/needlevale_c/out made/rust "made/rust/target/$triple/release"
  echo code >made/crates/lib.rt
  echo list >made/crates.txt
  echo code >made/rust/main.rs
  echo archive >made/crates/needlevale_c/out/libneedlevale_c.a
  program=made/rust/target/$triple/release/needlevale library=made/crates/needlevale_c/out/libneedlevale_c.a house=made
  echo program >"$program" && chmod +x "$program"
  run ! library_fresh
  run ! program_fresh
  library_stamp >"$library.stamp" && program_stamp >"$program.stamp"
  sleep 0.1
  library_fresh && program_fresh
  touch made/crates/lib.rt made/rust/main.rs
  library_fresh && program_fresh
  sleep 0.1
  mkdir made/crates/other && echo made >made/crates/needlevale_c/out/work && rmdir made/crates/other
  library_fresh && program_fresh
  sleep 0.1
  cp -p made/crates/lib.rt old && echo more >>made/crates/lib.rt && touch -r old made/crates/lib.rt
  run ! library_fresh
  library_stamp >"$library.stamp" && sleep 0.1 && echo foreign >"$library"
  run ! library_fresh
  run ! program_fresh
  program_stamp >"$program.stamp" && program_fresh
  sleep 0.1
  echo foreign >>"$program"
  run ! program_fresh
  program_stamp >"$program.stamp" && sleep 0.1 && rm made/rust/main.rs
  run ! program_fresh
}

@test "./run needs no kit where all is built, and says so where it is not" {
  says "needlevale 0.2.0" env PATH=/usr/bin:/bin "$house/run" --version
  mkdir -p made && cp -r "$house/run" "$house/scripts" "$house/crates.txt" "$house/kit.txt" made && mkdir -p made/crates/needlevale_c
  run -4 env PATH=/usr/bin:/bin made/run --version
  [ "${lines[-1]}" = "run: the library is not built of these sources, and the Rattle kit's 'rt', which builds it, is not on the PATH" ]
  mkdir made/bin
  printf '#!/bin/sh\necho "rt: refusal proved"\necho "rt: FAILED: name"\nexit 1\n' >made/bin/rt && chmod +x made/bin/rt
  run -4 env PATH="$PWD/made/bin:/usr/bin:/bin" made/run --version
  [[ "${lines[0]}" = "run: the kit here is 'rt: refusal proved'; all of this was last proved with "*" (kit.txt)" ]]
  [[ "${lines[1]}" = "run: proving and building the library from these sources, "*" crates: "* ]]
  [[ "${lines[-1]}" = "run: the library could not be proved and built; all that rt says of it is in "*/made/target/library.log ]]
  [ ! -e made/crates/needlevale_c/out/libneedlevale_c.a.stamp ]
}
