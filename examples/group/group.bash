# shellcheck shell=bash
# Three validators that share one record: what each of them does, and what the group is to show. Whoever
# reads this file (files, run) sets here to its folder and over to what carries the messages, and has four
# functions of its own, which are all that knows of that:
#   tell FILE          gives the file to the group as a message, and puts that message's mark into id
#   next WHO           gets the first message behind WHO's mark into WHO/message, and its mark into id;
#                      its status is 1 where there is none
#   send BOX FILE      gives the file to whoever looks into the box
#   receive BOX FILE   gets what is in the box
# What one of them cannot do ends the script, by fail.
# A validator is a folder in the room: its ID (by which the program tells it from others), the record
# that it kept, its mark (that of the last message that it heard), and the messages that it put aside.
# SVID names another program than ../../svid.
export LC_ALL=C
examples=${here:?}/..
svid=$(readlink -f -- "${SVID:-$examples/../svid}")
mapfile -t tokens <"$examples/tokens.txt"
# The clock, in seconds, and how far past it the moment of a message may lie.
now=1767225600
ahead=300
id=
room=

# Ends what still runs beside the script, and takes the room away. (A command before it may be among the jobs.)
end() {
  trap '' HUP INT TERM
  if jobs -p | grep -qx "${!-}"; then kill "$!"; wait "$!"; fi 2>/dev/null
  [ -z "$room" ] || rm -rf "$room"
}

say() { echo "group over ${over:?}: $*"; }

fail() {
  say "failed: $*"
  exit 1
}

[ -x "$svid" ] || { echo "examples/group: ${SVID:-$examples/../svid} is no program"; exit 2; }
# ../../svid looks at each source before it runs the program, and builds it where it must. Once is enough:
# the program is asked many times.
"$svid" --help >/dev/null || exit 2
built=$examples/../crates/svid_tool/out/svid_tool
if [ -z "${SVID:-}" ] && [ -x "$built" ]; then svid=$built; fi

# A signal ends the script as a failed check does. It waits until the room's name is known.
late=
trap end EXIT
trap 'late=129' HUP
trap 'late=130' INT
trap 'late=143' TERM
room=$(mktemp -d) || exit 2
# A process that reads what the script holds open until the script ends, also by a kill that no trap sees.
# Then it ends the server, whose number is in the room, and takes the room away.
# (the server has nothing of it open)
exec {alive}> >(
  trap '' HUP INT TERM
  cat >/dev/null
  if [ -s "$room/server" ]; then kill "$(<"$room/server")"; fi 2>/dev/null
  rm -rf "$room"
)
trap 'exit 129' HUP
trap 'exit 130' INT
trap 'exit 143' TERM
[ -z "$late" ] || exit "$late"
cd "$room" || exit 2

# make WHO ID: a validator that knows nothing.
make() {
  rm -rf "$1"
  mkdir -p "$1/aside"
  echo "$2" >"$1/id"
  echo 0 >"$1/mark"
  : >"$1/record"
}

# keep WHO: WHO's next record takes the place of the one before, all at once.
keep() { mv "$1/next" "$1/record" || fail "$1 cannot keep its record"; }

# judge LINE WORD..: the program's word on the token in this line of tokens.txt.
judge() {
  "$svid" check --bundles "$examples/bundles.json" --table "$examples/table.txt" "${@:2}" ledger \
    <<<"${tokens[$1 - 1]}"
}

# check WHO LINE WANT: WHO judges a token, keeps its record, and only then answers: what begins with WANT.
check() {
  local said
  now=$((now + 1))
  said=$(judge "$2" --now "$now" --validator-id "$(<"$1/id")" --record "$1/record" --out "$1/next")
  [ $? -le 1 ] || fail "$1 cannot check token $2"
  keep "$1"
  [[ $said == "$3"* ]] || fail "$1 answers token $2 with '$said', and not with '$3'"
}

# is_more A B: A is the greater number. A moment may be too great for the shell's own numbers.
is_more() { [ ${#1} -gt ${#2} ] || { [ ${#1} = ${#2} ] && [[ $1 > $2 ]]; }; }

# aside WHO WHY: WHO puts its message away, and says so.
aside() {
  mv "$1/message" "$1/aside/$id" || fail "$1 cannot put $id aside"
  say "$1 puts $id aside: $2"
}

# take WHO: WHO judges its message by itself. What is no message, what is too long to be read, and what lies
# too far past WHO's clock is put aside; the rest is joined with WHO's record.
take() {
  local moment status
  "$svid" report "$1/message" >"$1/report" 2>"$1/fault"
  status=$?
  if [ "$status" = 1 ] || grep -q '^svid: input 1 too long$' "$1/fault"; then
    aside "$1" "$(<"$1/fault")"
    return
  fi
  [ "$status" = 0 ] || fail "$1 cannot judge $id: $(<"$1/fault")"
  read -r _ moment <"$1/report"
  if is_more "$moment" $((now + ahead)); then
    aside "$1" "moment $moment is past $((now + ahead))"
    return
  fi
  "$svid" merge "$1/record" "$1/message" >"$1/next" || fail "$1 cannot join $id"
  keep "$1"
}

# hear WHO..: each takes what lies behind its mark. The mark is kept after the record: who is stopped in
# between takes a message again, which changes nothing.
hear() {
  local who
  for who; do
    while next "$who"; do
      take "$who"
      echo "$id" >"$who/mark" || fail "$who cannot keep its mark"
    done
  done
}

# same FILE FILE WHAT: the two are the same, byte for byte, or this is what is wrong.
same() { cmp -s "$1" "$2" || fail "$3"; }

# reports LINE: the report of each validator has this line.
reports() {
  local who
  for who in a b c; do
    "$svid" report "$who/record" | grep -qx "$1" || fail "$who does not report '$1'"
  done
}

# All that is to be shown, step by step.
show() {
  local who what bytes='' byte
  make a 00112233445566778899aabbccddeeff
  make b 11112233445566778899aabbccddeeff
  make c 22112233445566778899aabbccddeeff

  check a 1 accepted
  tell a/record
  hear a b c
  check b 1 'refused Replayed'
  check c 1 'refused Replayed'
  say "a accepted a token; b and c heard of it, and refuse it as Replayed"

  check a 2 accepted
  check b 2 accepted
  tell a/record
  tell b/record
  hear a b c
  reports 'twice 1'
  say "a and b accepted one token before they heard of each other: each report says twice 1"

  # A new c asks, and a answers, with its mark: c goes on from there.
  make c 33112233445566778899aabbccddeeff
  "$svid" summary c/record >c/asked || fail "c has no summary"
  send asked c/asked
  receive asked a/asked
  "$svid" answer --summary a/asked a/record >a/answer || fail "a does not answer"
  send answer a/answer
  send mark a/mark
  receive answer c/message
  receive mark c/mark
  id=answer
  take c
  same a/record c/record "c has not caught up"
  check c 1 'refused Replayed'
  check c 2 'refused Replayed'
  say "c came anew, gave a summary of $(wc -c <c/asked) bytes, and caught up by an answer of $(wc -c <a/answer)"

  tell a/record
  hear a b c
  cp b/record before
  what=$(<b/mark)
  tell a/record
  tell a/record
  hear b
  [ "$what" != "$(<b/mark)" ] || fail "b heard nothing"
  same before b/record "a message that b had heard before changed its record"
  say "a message that comes again changes nothing"

  # Bytes that are no message: each byte there is, and two line ends behind them. Then the records of two
  # whose clocks are wrong: one a second too far ahead, and one at the end of all time.
  for byte in {0..255}; do
    printf -v byte '\\x%02x' "$byte"
    bytes+=$byte
  done
  printf '%b\n\n' "$bytes" >none
  judge 1 --now $((now + 1 + ahead + 1)) --validator-id 44112233445566778899aabbccddeeff --out early >said
  judge 1 --now 18446744073709551615 --validator-id 55112233445566778899aabbccddeeff --out last >said
  mkdir bad
  for what in none early last; do
    tell "$what"
    mv "$what" "bad/$id"
  done
  check c 3 accepted
  tell c/record
  hear a b c
  for who in a b c; do
    diff -r bad "$who/aside" >said || fail "$who has other messages aside"
  done
  check a 3 'refused Replayed'
  check b 3 'refused Replayed'
  say "what is no message or too far ahead is aside, byte for byte, and what came behind it was heard"

  for who in a b c; do tell "$who/record"; done
  hear a b c
  same a/record b/record "the records of a and b differ"
  same a/record c/record "the records of a and c differ"
  reports 'uses 4'
  reports 'twice 1'
  say "all three records are the same $(wc -c <a/record) bytes"
}
