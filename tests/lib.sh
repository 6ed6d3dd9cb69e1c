# What the scripts share: the toolchain, missing packages, how x86-64 programs are built and run on this machine, and the
# tally. Rattle's programs and libraries are x86-64 code; on Arm they are linked by Debian's cross compiler and run by
# qemu-user. A script stands in the top folder when it calls these.

# Where this is set, `cd` may go elsewhere, and says so on the standard output.
unset CDPATH

say() { printf '%s\n' "$*" >&2; }

have() { command -v "$1" >/dev/null 2>&1; }

# need COMMAND PACKAGE..: the command is there, or Debian's packages are installed for it.
need() {
  local command=$1
  shift
  have "$command" && return 0
  if have apt-get && [ "$(id -u)" = 0 ]; then
    say "installing $* (for $command)"
    # Another program may hold the packages' lock, and a mirror may fail once: wait, and try again.
    for _ in 1 2 3; do
      apt-get update >/dev/null 2>&1
      apt-get install -y --no-install-recommends -o DPkg::Lock::Timeout=120 "$@" >/dev/null 2>&1 && break
      sleep 5
    done
  fi
  have "$command" || { say "missing: $command (Debian: apt-get install $*)"; return 1; }
}

need_rt() {
  have rt || { say "missing: rt, the Rattle toolchain (see README, 'What it needs')"; return 1; }
}

# Where Debian's packages for cross compiling put x86-64's C library.
CROSS=/usr/x86_64-linux-gnu

# Sets RUN, what runs an x86-64 program here: nothing where it is native. The library path keeps the loader from a C
# library of another version that the machine may have for x86-64 beside this one.
choose_runner() {
  case "$(uname -m)" in
    x86_64) RUN=() ;;
    aarch64)
      need qemu-x86_64 qemu-user || return 1
      need "$CROSS/lib/ld-linux-x86-64.so.2" libc6-amd64-cross || return 1
      RUN=(qemu-x86_64 -L "$CROSS" -E "LD_LIBRARY_PATH=$CROSS/lib")
      ;;
    *)
      say "this machine ($(uname -m)) is neither x86-64 nor Arm (aarch64)"
      return 1
      ;;
  esac
}

# Sets CC, a C compiler for x86-64, and RUN.
choose_machine() {
  choose_runner || return 1
  case "$(uname -m)" in
    x86_64)
      need cc gcc libc6-dev || return 1
      CC=cc
      ;;
    *)
      need x86_64-linux-gnu-gcc gcc-x86-64-linux-gnu libc6-dev-amd64-cross || return 1
      CC=x86_64-linux-gnu-gcc
      ;;
  esac
}

# quietly LOG COMMAND..: what the command says goes into a file, and its end is shown where the command fails.
quietly() {
  local log=$1
  shift
  mkdir -p "$(dirname "$log")" || return 1
  "$@" >"$log" 2>&1 && return 0
  say "failed: $* (all of it is in $log)"
  tail -n 30 "$log" | cut -c 1-300 >&2
  return 1
}

LIBRARY=target/staticlib/libdesk.a

# built_since FILE: whether the file is younger than all that is proved; what rt leaves in out/ is none of it.
built_since() {
  [ -e "$1" ] && [ -z "$(find crates/*/src crates/*/specs crates/*/proofs crates.txt -newer "$1" -print -quit 2>/dev/null)" ]
}

# rt_in CRATE WORD..: what rt does in a crate's folder.
rt_in() { (cd "crates/$1" && shift && rt "$@" </dev/null); }

# The proved library, an archive for C. It is proved and built anew unless it is younger than every file of the crates.
build_library() {
  built_since "$LIBRARY" && return 0
  need_rt || return 1
  rm -f "$LIBRARY"
  mkdir -p "$(dirname "$LIBRARY")" && quietly target/tests/library.log rt_in desk_c lib && cp crates/desk_c/out/libdesk_c.a "$LIBRARY"
}

# program_path NAME: where the program lies, once it is built.
program_path() { echo "crates/$1/out/$1"; }

# build_program NAME: a program, proved and built, unless it is younger than every file of the crates. `rt run` builds it, and
# runs it once, in the crate's folder.
build_program() {
  built_since "$(program_path "$1")" && return 0
  need_rt || return 1
  rm -f "$(program_path "$1")"
  quietly "target/tests/$1.log" rt_in "$1" run || true
  [ -e "$(program_path "$1")" ]
}

# run_program NAME EXAMPLE [FOLDER]: what tools/NAME does, from any folder: the program on the files of a folder, or of
# examples/EXAMPLE. It is proved and built first, where that has not been done.
run_program() {
  local top name=$1 folder
  [ $# -le 3 ] || { say "usage: tools/$name [FOLDER]"; return 2; }
  top=$(cd "$(dirname "${BASH_SOURCE[0]}")/.." && pwd) || return 1
  folder=${3:-$top/examples/$2}
  [ -d "$folder" ] || { say "no such folder: $folder"; return 2; }
  choose_runner || return 1
  (
    cd "$top" || exit 1
    [ -e "$(program_path "$name")" ] || say "proving and building program $name; the first time this takes some minutes"
    build_program "$name"
  ) || return 1
  cd "$folder" && exec "${RUN[@]}" "$top/$(program_path "$name")"
}

# cargo_release PACKAGE WORD..: cargo on a package of tests/, for release, its files under target/.
cargo_release() {
  local package=$1 what=$2
  shift 2
  CARGO_TARGET_DIR=$PWD/target/tests/$package \
    cargo "$what" --release --locked --offline --manifest-path "tests/$package/Cargo.toml" "$@"
}

CHECK=target/tests/rust/release/hazelcrook-check
PLAIN=target/tests/plain/release/hazelcrook-plain
PLAIN_LIBRARY=target/tests/plain/release/libhazelcrook_plain.a

# The plain model with its comparison.
build_check() {
  need cargo cargo rustc || return 1
  quietly target/tests/check.log cargo_release rust build
}

# The replay in plain Rust, beside which the library is measured: a program and a library.
build_plain() {
  need cargo cargo rustc || return 1
  quietly target/tests/plain.log cargo_release plain build
}

# What several scripts need, built side by side: the library keeps one processor busy for minutes, cargo has another. What
# fails here is built again, and judged, where it is needed. No rt runs beside another: they write the same files.
prepare() {
  { trap - INT && build_library; } &
  build_check && build_plain && quietly target/tests/model.log cargo_release rust test --no-run
  wait
}

# build_c PROGRAM SOURCE WORD..: a C program with the library, every warning an error; words are flags and further files.
build_c() {
  local program=$1 source=$2
  shift 2
  quietly "$program.log" "$CC" -std=c11 -O2 -Wall -Wextra -Werror -pedantic -Iinclude -o "$program" "$source" "$@" "$LIBRARY"
}

VIEWER=target/viewer/report

# The desk's viewer, with every warning an error; built anew where its files or the library are younger.
build_viewer() {
  [ -e "$LIBRARY" ] || say "proving and building the library; the first time this takes some minutes"
  build_library || return 1
  if [ -e "$VIEWER" ] && [ -z "$(find viewer include "$LIBRARY" -newer "$VIEWER" -print -quit)" ]; then return 0; fi
  mkdir -p "$(dirname "$VIEWER")"
  build_c "$VIEWER" "${STRICTER[@]}" viewer/*.c
}

# More warnings than a small program is asked for.
STRICTER=(-Wshadow -Wconversion -Wmissing-prototypes -Wstrict-prototypes)

SANITIZERS=(-g -fsanitize=address,undefined -fno-sanitize-recover=all)

# sanitizers_run COMPILER FOLDER: whether the compiler has the sanitizers and their programs run here.
sanitizers_run() {
  echo 'int main(void) { return 0; }' >"$2/probe.c"
  { "$1" "${SANITIZERS[@]}" -o "$2/probe" "$2/probe.c" && "$2/probe"; } >/dev/null 2>&1
}

passed=0
failed=0

pass() { passed=$((passed + 1)) && echo "passed: $*"; }

fail() { failed=$((failed + 1)) && echo "FAILED: $*"; }

# judge NAME COMMAND..: one check, passed where the command succeeds.
judge() {
  local name=$1
  shift
  if "$@"; then pass "$name"; else fail "$name"; return 1; fi
}

# part NAME COMMAND..: runs and shows a part whose last line 'N passed, M failed' joins the tally. A part without that line
# has failed, and so has one that ends badly and tells of no failure.
part() {
  local name=$1 line last='' status=0
  shift
  while IFS= read -r line || [ -n "$line" ]; do
    printf '%s\n' "$line"
    last=$line
  done < <("$@" 2>&1)
  wait "$!" || status=$?
  if ! [[ $last =~ ^([0-9]+)' passed, '([0-9]+)' failed'$ ]]; then
    fail "$name: it ended with status $status and no tally"
    return
  fi
  passed=$((passed + BASH_REMATCH[1]))
  failed=$((failed + BASH_REMATCH[2]))
  if [ "$status" != 0 ] && [ "${BASH_REMATCH[2]}" = 0 ]; then fail "$name: it ended with status $status"; fi
}

# beside NAME COMMAND..: starts a part that runs beside what comes after it, until show_besides. What is in the background
# would not hear of an interrupt by itself.
besides=()
beside() {
  local name=$1
  shift
  { trap - INT && "$@" >"$(log_of "$name")" 2>&1; } &
  besides+=("$! $name")
}

# Where such a part leaves what it says.
log_of() { echo "target/tests/${1// /-}.log"; }

# Waits for the parts that were started, and shows each by `part`, in the order of their start.
show_besides() {
  local one name status
  for one in "${besides[@]}"; do
    name=${one#* } status=0
    wait "${one%% *}" || status=$?
    part "$name" ended "$(log_of "$name")" "$status"
  done
  besides=()
}

# ended LOG STATUS: what a command said, and its end.
ended() {
  cat "$1"
  return "$2"
}

# The last line of a script, and its exit status: the tally.
tally() {
  echo "$passed passed, $failed failed"
  [ "$failed" = 0 ]
}
