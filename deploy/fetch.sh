#!/usr/bin/env bash
# Polls what an operator publishes by GET, and posts it to a gateway.
#
#   deploy/fetch.sh [OPTION VALUE].. FROM TO
#
# FROM is the operator's URL, TO the gateway's: http://127.0.0.1:8081/siri/et, .../siri/sx or .../gtfs-rt.
#
#   --every SECONDS      the wait between two rounds (30)
#   --most SECONDS       the longest wait (300): it doubles with each round that doesn't come to a body that is taken
#   --within SECONDS     how long one GET or one POST may take (60)
#   --rounds N           ends after so many rounds, with the status of the last one; else it goes on until it is ended
#   --from-headers FILE  header lines for the GET, such as the key of an API
#   --to-headers FILE    header lines for the POST, such as the secret of a proxy
#   --keep FILE          a file that each body takes the place of that the gateway took something of, as deploy/boards reads it
#   --through COMMAND    a command of bash that turns what came, on its standard input, into what is posted
#
# Each round is a line on standard output: the time, what came, what became of it. A body that the operator says is
# unchanged (304) is posted again all the same, since the gateway may have been started anew. The options may stand
# behind the URLs too.
#
# Statuses: 0 taken; 2 bad words; 65 the body was refused, so a person has to look; 69 the operator gave no body;
# 75 the gateway gave no answer, or one of want (5xx); 76 nothing of the body was taken, and items were set aside, so a
# person has to look: deploy/explain says what is wrong with them. By a signal it ends with 143.
set -euo pipefail

MOST_BODY=16777216
every=30 most=300 within=60 rounds=0 from_headers=/dev/null to_headers=/dev/null through='' keep=''

refuse() {
  printf 'fetch.sh: %s\n' "$1" >&2
  exit 2
}

urls=()
while [ $# -gt 0 ]; do
  case $1 in
    --help | -h)
      sed -n '2,/^set/{/^set/d;s/^#\( \|$\)//;p}' "$0"
      exit
      ;;
    --every | --most | --within | --rounds)
      [[ ${2-} =~ ^[1-9][0-9]{0,7}$ ]] || refuse "$1 takes a number from 1"
      declare "${1#--}=$2"
      ;;
    --from-headers | --to-headers)
      [ -r "${2-}" ] || refuse "$1 takes a file that can be read"
      name=${1#--}
      declare "${name/-/_}=$2"
      ;;
    --through)
      [ -n "${2-}" ] || refuse "$1 takes a command"
      through=$2
      ;;
    --keep)
      [[ -n "${2-}" && -w $(dirname "$2") ]] || refuse "$1 takes a file in a folder that can be written"
      keep=$2
      ;;
    -*) refuse "$1 is no option; --help has them" ;;
    *)
      urls+=("$1")
      shift
      continue
      ;;
  esac
  shift 2
done
[ "${#urls[@]}" -eq 2 ] || refuse 'two URLs are needed: FROM TO; --help says more'
from=${urls[0]} to=${urls[1]}
most=$((most < every ? every : most))
command -v curl > /dev/null || refuse "curl isn't on the path"

folder=$(mktemp -d)
child=
end() {
  if [ -n "$child" ]; then kill "$child" 2> /dev/null || true; fi
  exit 143
}
trap 'rm -rf "$folder"' EXIT
trap end INT TERM HUP

# Runs a command that a signal to this script ends too.
attend() {
  local status=0
  "$@" &
  child=$!
  wait "$child" || status=$?
  child=
  return "$status"
}

# curl with the status of the answer in `code`, and in `why` what it says where there is none.
ask() {
  # A body without a length ends by the limit of a file, a KiB above that of a body.
  ulimit -f $((MOST_BODY / 1024 + 1))
  exec curl --silent --show-error --proto '=http,https' --max-time "$within" --write-out '%{http_code}' "$@" > "$folder/code" 2> "$folder/why"
}

# What an answer's last head says under a name.
header() {
  tr -d '\r' < "$folder/head" | awk -v name="$1:" '
    /^HTTP\// { found = "" }
    tolower($1) == name { sub(/^[^:]*:[ \t]*/, ""); found = $0 }
    END { print found }'
}

# What the operator has to be told so that it sends only what is new.
remember() {
  local tag changed
  tag=$(header etag)
  changed=$(header last-modified)
  : > "$folder/condition"
  if [ -n "$tag" ]; then printf 'If-None-Match: %s\n' "$tag" >> "$folder/condition"; fi
  if [ -n "$changed" ]; then printf 'If-Modified-Since: %s\n' "$changed" >> "$folder/condition"; fi
}

# What is done in a child with a limit of time, as a command that hangs would stop all.
turned() {
  exec timeout "$within" bash -c "$through" < "$folder/new" > "$folder/turned" 2> "$folder/why"
}

# Turns what came into the body. Adds to `said`, and answers with the status of the round where that fails.
turn() {
  local status=0 why
  if [ -n "$through" ]; then
    attend turned || status=$?
    if [ "$status" -ne 0 ]; then
      why=$(tail -n 1 "$folder/why")
      said+=", refused: $through ended with $status${why:+: $why}"
      return 65
    fi
    mv "$folder/turned" "$folder/new"
  fi
  mv "$folder/new" "$folder/body"
}

too_large() {
  said="refused: over $MOST_BODY bytes"
  return 65
}

# Gets the body. Sets `said`, and answers with the status of the round where there is none.
get() {
  local status=0
  : > "$folder/head"
  attend ask --location --max-redirs 3 --compressed --max-filesize "$MOST_BODY" --header @"$from_headers" \
    --header @"$folder/condition" --dump-header "$folder/head" --output "$folder/new" -- "$from" || status=$?
  case $status in
    0) ;;
    # Over the length by what the head says, by what came, or by the limit of a file.
    63 | 153)
      too_large
      return
      ;;
    *)
      said="no body: $(tail -n 1 "$folder/why")"
      return 69
      ;;
  esac
  case $(cat "$folder/code") in
    200)
      touch "$folder/new"
      said="$(wc -c < "$folder/new") bytes"
      turn || return
      remember
      ;;
    304) said=unchanged ;;
    *)
      said="no body: $(cat "$folder/code")"
      return 69
      ;;
  esac
}

# Adds the report to `said`, in the words of the program's reports on files, with how often each fault is there: whole, but
# for the numbers of calls. Where items were set aside and none was taken it answers with the status of that.
report() {
  local answer faults taken
  answer=$(cat "$folder/answer")
  if ! [[ $answer =~ \"passed\":([0-9]+),\"taken\":([0-9]+)\}$ ]]; then
    said+=', taken'
    return
  fi
  taken=${BASH_REMATCH[2]}
  said+=", taken $taken passed ${BASH_REMATCH[1]}"
  faults=$({ grep -o '"fault":"[^"]*' "$folder/answer" || true; } | cut -d '"' -f 4 | sed -E 's/ -?[0-9]+//g' | sort | uniq -c |
    awk '{ n = $1; sub(/^ *[0-9]+ /, ""); count += n; each = each ", " n " " $0 } END { print count + 0 (count ? " (" substr(each, 3) ")" : "") }')
  said+=" aside $faults"
  if [ "$taken" -eq 0 ] && [ "$faults" != 0 ]; then return 76; fi
}

# The body as a whole in the place of the one before.
kept() {
  if [ -n "$keep" ] && ! { cp "$folder/body" "$keep.new" && mv "$keep.new" "$keep"; } 2> "$folder/why"; then
    said+=", not kept: $(tail -n 1 "$folder/why")"
  fi
}

# Posts the body, three times where there is no answer. Adds to `said`, and answers with the status of the round.
post() {
  local code
  : > "$folder/answer"
  if ! attend ask --retry 2 --retry-delay 1 --retry-connrefused --header 'Expect:' --header @"$to_headers" \
    --data-binary @"$folder/body" --output "$folder/answer" -- "$to"; then
    said+=", no answer: $(tail -n 1 "$folder/why")"
    return 75
  fi
  code=$(cat "$folder/code")
  case $code in
    200)
      report || return
      kept
      ;;
    5??)
      said+=", no answer: $code $({ grep -a -m 1 '^H5' "$folder/answer" || true; })"
      return 75
      ;;
    *)
      said+=", refused: $code $({ grep -a -m 1 '^H4' "$folder/answer" || true; })"
      return 65
      ;;
  esac
}

round() {
  get || return
  if [ "$(wc -c < "$folder/body")" -gt "$MOST_BODY" ]; then
    too_large
    return
  fi
  post
}

: > "$folder/condition"
wait_for=$every
for ((count = 1; ; count++)); do
  status=0
  said=
  round || status=$?
  if [ "$status" -eq 0 ]; then
    wait_for=$every
  else
    wait_for=$((2 * wait_for > most ? most : 2 * wait_for))
    said=${said% }
    if [ "$count" -ne "$rounds" ]; then said+="; next in $wait_for s"; fi
  fi
  printf '%s %s\n' "$(date -u +%Y-%m-%dT%H:%M:%SZ)" "$said"
  if [ "$count" -eq "$rounds" ]; then exit "$status"; fi
  attend sleep "$wait_for"
done
