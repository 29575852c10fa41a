# What the commands ./pfafstetter and ./atlas do. Each of them sets these three and then reads this file:
#   name     its own name, which is also that of the program that it runs
#   prints   what it prints for an accepted file, such as 'the listing'
#   after    the same where its usage tells the status, such as 'a listing'
# The program is proved and built on first use and after a change of its sources; that needs the Rattle kit (rt) and
# takes some minutes.

usage() {
  cat <<TEXT
usage: ./$name FILE          labels the grid file FILE
       ./$name < FILE        labels the grid file on standard input
       ./$name --help        prints this

It prints $prints, or after a refusal the line \`refused,place\` and its two values. \
README.md says what the numbers mean.
Status: 0 after $after, 1 after a refusal, 2 if the arguments are wrong or the input or output failed.
TEXT
}

# fail WORDS..: says on standard error what went wrong, and ends
fail() {
  echo "$name: $*" >&2
  exit 2
}

top=$(cd "$(dirname "$0")" && pwd) || exit 2
program="$top/target/bin/$name"

# crates_below NAME: how many crates the crate NAME is built from, itself among them
crates_below() {
  awk -F: -v name="$1" '/^[a-z]/ { below[$1] = $2 }
    function visit(crate, words, i, n) {
      if (!(crate in below) || crate in seen) return
      seen[crate]
      count++
      n = split(below[crate], words, " ")
      for (i = 1; i <= n; i++) visit(words[i])
    }
    END { visit(name); print count }' "$top/crates.txt"
}

# build: proves and builds the program, and shows on standard error how far it is
build() {
  local log="$top/target/build-$name.log" crates done=0
  crates=$(crates_below "$name")
  mkdir -p "$top/target/bin"
  echo "$name: building the program; this takes some minutes" >&2
  : > "$log"
  while read -r line; do
    echo "$line" >> "$log"
    case "$line" in
      'crate '*': modules '*)
        done=$((done + 1))
        line=${line#crate }
        echo "$name: $done of $crates: ${line%%:*}" >&2
        ;;
    esac
  done < <(cd "$top/crates/$name" && rt run 2>&1 < /dev/null)
  if wait $!; then
    cp "$top/crates/$name/out/$name" "$program"
  else
    grep -vE '^(statements|library|logic|note|checked) ' "$log" | tail -n 20 >&2
    fail "the program could not be built"
  fi
}

# stale: whether a source is newer than the program
stale() {
  [ ! -x "$program" ] ||
    [ -n "$(find "$top/crates" "$top/crates.txt" -name out -prune -o \
      \( -name '*.rt' -o -name '*.antt' -o -name crates.txt \) -newer "$program" -print -quit)" ]
}

[ $# -le 1 ] || { usage >&2; exit 2; }
case "${1-}" in
  --help) usage; exit 0 ;;
  -*) echo "$name: there is no option $1" >&2; usage >&2; exit 2 ;;
  '') [ $# -eq 0 ] || { usage >&2; exit 2; } ;;
  *)
    [ -e "$1" ] || fail "there is no file $1"
    [ ! -d "$1" ] || fail "$1 is a folder"
    exec < "$1" || fail "the file $1 cannot be read"
    ;;
esac
[ ! -t 0 ] || { usage >&2; exit 2; }
(: 3<&0) 2> /dev/null || fail "standard input cannot be read" # it is closed

if stale; then build; fi
report=$(mktemp) || exit 2
trap 'rm -f "$report"' EXIT
complaint=$("$program" 2>&1 > "$report") || complaint="$complaint${complaint:+; }$name: the program did not end"
if [ -n "$complaint" ]; then
  echo "$complaint" >&2
  exit 2
fi
[ -s "$report" ] || fail "the program printed nothing"
cat "$report" 2> /dev/null || fail "standard output cannot be written"
read -r heading < "$report"
[ "$heading" != refused,place ] || exit 1
