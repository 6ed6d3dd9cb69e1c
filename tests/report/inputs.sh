# Folders that no example shows: `make_folders FOLDER` lays them down, each with its files. They are limits, refusals and
# stops, and bytes that would be something else than text if a page did not take care.

# Bytes from one number to another, but for tabs and line ends, which would part fields and lines.
put_range() {
  local byte octal
  for ((byte = $1; byte <= $2; byte++)); do
    [ "$byte" = 9 ] || [ "$byte" = 10 ] && continue
    printf -v octal %03o "$byte"
    printf "\\$octal"
  done
}

# What a page must show as text: markup, entities, quotes, escapes, NUL, an escape of its own, UTF-8 and bytes that are none.
put_hostile() {
  printf '</td></table><script>document.title="taken"</script>&amp;&#60;&'
  printf "\"'<!-- ]]> -->\\\\x00\000\033\177\303\251\377\355\240\200\342\200\256"
}

# written_pages FLASH EEPROM: a byte is written to each of the chips' first pages, so many of them; with dumps that have
# other bytes in each row, all pages make the longest report of bytes.
written_pages() {
  awk -v flash="$1" -v eeprom="$2" 'function put(channel, event) { printf "%d\t%s\t%s\n", stamp, channel, event }
    BEGIN {
      print "board\t00\t1\t0"
      for (page = 0; page < flash; page++) {
        put("F", "sel"); put("F", "x\t06\tff"); put("F", "des"); stamp++
        put("F", "sel"); put("F", "x\t02\tff"); put("F", "x\t00\tff"); put("F", sprintf("x\t%02x\tff", page))
        put("F", "x\t10\tff"); put("F", "x\t0f\tff"); put("F", "des"); stamp++
        put("F", "end"); stamp++
      }
      for (page = 0; page < eeprom; page++) {
        put("E", "sta"); put("E", "b\ta0\t0"); put("E", sprintf("b\t%02x\t0", int(page / 4)))
        put("E", sprintf("b\t%02x\t0", page % 4 * 64)); put("E", "b\t55\t0"); put("E", "sto"); stamp++
        put("E", "end"); stamp++
      }
    }'
}

# The flash's status read 30 times, each time recorded wrong; `sel` and `des` apart.
wrong_replies() {
  local stamp
  printf 'board\t00\t1\t0\n1\tF\tsel\n2\tF\tx\t05\tff\n'
  for ((stamp = 3; stamp < 33; stamp++)); do printf '%d\tF\tx\t00\t5a\n' "$stamp"; done
  printf '33\tF\tdes\n'
}

board() { printf 'board\t%s\t%s\t%s\n' "$@"; }

# many COUNT TEXT: the text so many times.
many() { yes "$2" | head -n "$1" | tr -d '\n'; }

bytes() { head -c "$1" /dev/zero; }

make_refused() {
  local to=$1 name
  bytes 65537 >"$to/too-long/trace.tsv" &&
    : >"$to/empty/trace.tsv" &&
    { board 00 1 0 && printf '5\tF\tsel\n6\tF\tdes'; } >"$to/no-line-end/trace.tsv" &&
    { board 8c 3 5 && printf '5\tF\tsel\r\n'; } >"$to/return/trace.tsv" &&
    { board 04 4 7 && printf '5\tF\t' && many 60000 s && echo; } >"$to/long-field/trace.tsv" &&
    { board 08 2 1 && printf '5\tF' && many 30000 $'\t' && echo; } >"$to/tabs/trace.tsv" &&
    many 60000 '&' >"$to/long-line/trace.tsv" &&
    { board 80 1 2 && printf '5\tF\t' && put_hostile && printf '\tff\n'; } >"$to/hostile/trace.tsv" &&
    { put_hostile && printf '\t' && put_hostile; } >"$to/hostile-board/trace.tsv" &&
    { board 00 1 3 && printf '5\t' && put_range 0 127 && printf '\t ' && echo; } >"$to/low-bytes/trace.tsv" &&
    { board 00 1 4 && printf '5\t' && put_range 128 255 && echo; } >"$to/high-bytes/trace.tsv" &&
    bytes 32767 >"$to/short-dump/flash.bin" &&
    { bytes 32769 | tee "$to/both-dumps/eeprom.bin" >"$to/long-dump/eeprom.bin"; } &&
    bytes 7 >"$to/both-dumps/flash.bin" &&
    for name in short-dump long-dump both-dumps; do cp examples/first/trace.tsv "$to/$name/"; done
}

# Records that cannot be, by what came before on their bus.
make_impossible() {
  local to=$1
  { board 00 1 0 && printf '5\tL\ton\n6\tF\tend\n7\tF\tdes\n'; } >"$to/not-selected/trace.tsv" &&
    { board 00 1 0 && printf '5\tF\tsel\n5\tF\tcut\n6\tF\tend\n7\tE\tsta\n7\tF\tx\t00\t00\n'; } \
      >"$to/flash-cut/trace.tsv" &&
    { board 00 1 0 && printf '5\tE\tsta\n5\tE\tsto\n6\tE\tend\n7\tE\tb\ta0\t0\n'; } >"$to/not-started/trace.tsv" &&
    { board 00 1 0 && printf '5\tE\tsta\n5\tE\tcut\n6\tE\tend\n7\tE\tb\ta0\t0\n'; } >"$to/eeprom-cut/trace.tsv"
}

# program ADDRESS BYTE..: write enable and a PROGRAM of the flash, from stamp 10 to its `des` at 12.
program() {
  local byte
  printf '10\tF\tsel\n10\tF\tx\t06\tff\n10\tF\tdes\n11\tF\tsel\n11\tF\tx\t02\tff\n'
  for byte in "${1:0:2}" "${1:2:2}" "${1:4:2}" "${@:2}"; do printf '11\tF\tx\t%s\tff\n' "$byte"; done
  printf '12\tF\tdes\n'
}

# Cycles that run where the trace ends or stops, of both chips; and sixteen bytes in a row with some doubtful bits each.
make_cycles() {
  local to=$1 write=$'13\tE\tsta\n13\tE\tb\ta0\t0\n13\tE\tb\t00\t0\n13\tE\tb\t40\t0\n13\tE\tb\t55\t0\n14\tE\tsto\n'
  { board 84 2 0 && program 008310 a5 && printf %s "$write"; } >"$to/running/trace.tsv" &&
    bytes 32768 | tee "$to/running/eeprom.bin" >"$to/running/flash.bin" &&
    { board 00 1 0 && program 000010 a5 && printf '15\tF\tend\n15\tL\toff\n20\tE\tend\n'; } >"$to/running-stop/trace.tsv" &&
    { board 00 1 0 && program 000010 0f 1e 2d 3c 4b 5a 69 78 87 96 a5 b4 c3 d2 e1 f0 && printf '15\tL\toff\n'; } >"$to/bits/trace.tsv" &&
    bytes 32768 | tr '\000' '\377' >"$to/bits/flash.bin"
}

make_played() {
  local to=$1
  # The longest trace that there is.
  { "$CHECK" emit full-tied && printf '99999\tL\ton\n'; } >"$to/full/trace.tsv" && [ "$(wc -c <"$to/full/trace.tsv")" = 65536 ] &&
    "$CHECK" emit reads | head -c 32768 >"$to/every-page/flash.bin" &&
    { while put_hostile && put_range 0 255; do :; done | head -c 32768; } >"$to/every-page/eeprom.bin" &&
    cp "$to/every-page/flash.bin" "$to/every-page/eeprom.bin" "$to/few-pages/" &&
    written_pages 128 512 >"$to/every-page/trace.tsv" &&
    written_pages 4 12 >"$to/few-pages/trace.tsv" &&
    wrong_replies >"$to/wrong-replies/trace.tsv" &&
    { board 00 1 0 && yes $'0\tL\ton' | head -n 9360; } >"$to/crowd/trace.tsv" &&
    board 0c 4 6 >"$to/board-alone/trace.tsv" &&
    bytes 32768 >"$to/board-alone/flash.bin" &&
    bytes 32768 >"$to/board-alone/eeprom.bin"
}

make_folders() {
  local to=$1 trace
  mkdir -p "$to"/{absent,empty,too-long,no-line-end,return,long-field,tabs,long-line} \
    "$to"/{hostile,hostile-board,low-bytes,high-bytes} \
    "$to"/{short-dump,long-dump,both-dumps,not-selected,flash-cut,not-started,eeprom-cut} \
    "$to"/{full,every-page,few-pages,wrong-replies,crowd,board-alone,running,running-stop,bits} || return 1
  make_refused "$to" 2>/dev/null && make_impossible "$to" && make_cycles "$to" && make_played "$to" 2>/dev/null || return 1
  for trace in tests/c/traces/*.tsv; do
    mkdir -p "$to/c-$(basename "$trace" .tsv)" && cp "$trace" "$to/c-$(basename "$trace" .tsv)/trace.tsv" || return 1
  done
}
