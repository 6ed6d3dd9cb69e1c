# The browser, and what comes of it: what it shows of the reports in `$site`, read back into files under `$out/seen` and held
# to those under `$out/due`; and what it prints of them, under `$out/paper`.

# Debian's chromium without a window, with a folder of its own; root can run it only without its sandbox, and it opens nothing
# but what is made here.
browse() {
  local own status=0
  own=$(mktemp -d "$out/browser.XXXXXX") || return 1
  timeout 120 chromium --headless --no-sandbox --disable-gpu --disable-background-networking --user-data-dir="$own" "$@" ||
    status=$?
  rm -rf "$own"
  return "$status"
}

# The browser looks at the reports that `looked` names; of those that `printed` names it tells their words too.
look() {
  cp tests/report/look.html tests/report/look.js "$site/" &&
    {
      echo 'const reports = [' && printf '  "%s",\n' "${looked[@]}" && echo '];'
      echo 'const printed = [' && printf '  "%s",\n' "${printed[@]}" && echo '];'
    } >"$site/list.js" &&
    browse --allow-file-access-from-files --enable-logging=stderr --virtual-time-budget=1000000 --dump-dom "$site/look.html" \
      >"$out/seen.html" 2>"$out/browser.err"
}

# Parts what the browser wrote into a file for each report and kind.
part_seen() {
  sed -n '/<pre id="seen">/,/<\/pre>/p' "$out/seen.html" |
    sed 's/^<pre id="seen">//; s/<\/pre>.*//; s/&nbsp;/\xc2\xa0/g; s/&lt;/</g; s/&gt;/>/g; s/&amp;/\&/g' |
    awk -v folder="$out/seen/" '/^@/ { close(file); file = folder substr($1, 2) "." $2; printf "" >file; next }
      { print substr($0, 2) >file }'
  [ -e "$out/seen/looked.${#looked[@]}" ]
}

# Where the page that looks at them has said its one word, the reports' own would be there too.
no_word_on_the_console() {
  [ "$(grep -c ':CONSOLE' "$out/browser.err")" = 1 ] && grep -q ':CONSOLE.*"looked"' "$out/browser.err"
}

# as_said NAME: what a report says in words is what stands in tests/report/said, which was read beside README's tables.
as_said() { diff "tests/report/said/$1.txt" "$out/seen/$1.said"; }

# as_due NAME..: what the browser saw of these reports is what is due, and nothing that no report may have.
as_due() {
  local name kind status=0
  for name; do
    for kind in facts sums name listing pages; do
      diff "$out/due/$name.$kind" "$out/seen/$name.$kind" >"$out/diff" && continue
      say "$name: $kind (< is due)" && head -n 6 "$out/diff" | cut -c 1-200
      status=1
    done
    if [ ! -e "$out/seen/$name.faults" ] || [ -s "$out/seen/$name.faults" ]; then
      say "$name: faults" && head -n 6 "$out/seen/$name.faults"
      status=1
    fi
  done
  return "$status"
}

# On paper.

print_all() {
  local name
  for name; do
    browse --no-pdf-header-footer --disable-pdf-tagging --print-to-pdf="$out/paper/$name.pdf" "$site/$name.html" \
      >/dev/null 2>"$out/paper/$name.err" || return 1
  done
}

# Characters, one a line.
characters() { LC_ALL=C.UTF-8 grep -o '[^[:space:]]' "$1"; }

# numbered SHEETS TEXT: each sheet tells its number.
numbered() {
  [ "$(tr '\f' '\n' <"$2" | grep -c "^[0-9]* of $1\$")" = "$1" ] || { say "not each sheet has its number"; return 1; }
}

# on_paper NAME: the sheets are A4 and numbered; every word lies within them and over no other, none is shrunk; all that the
# browser shows is there in its order, beside what each sheet repeats.
on_paper() {
  local paper=$out/paper/$1 sheets
  sheets=$(pdfinfo "$paper.pdf" | sed -n 's/^Pages: *//p') && [ "${sheets:-0}" -gt 0 ] || return 1
  pdftotext -bbox "$paper.pdf" "$paper.boxes" && pdftotext -raw "$paper.pdf" "$paper.text" &&
    awk -v sheets="$sheets" -v heading="$(cat "$out/seen/$1.heading")" -f tests/report/boxes.awk "$paper.boxes" &&
    numbered "$sheets" "$paper.text" &&
    awk 'BEGIN { found = 0; due = 0 }
      NR == FNR { wanted[due++] = $0; next }
      $0 "" == wanted[found] "" { found++ }
      END { if (found < due) print "missing on paper, from character " found + 1 " of " due; exit found < due || due == 0 }' \
      <(characters "$out/seen/$1.words") <(characters "$paper.text")
}
