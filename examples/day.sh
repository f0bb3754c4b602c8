#!/usr/bin/env bash
# A laboratory's day, played with labdesk, curl and jq: two laboratories are founded in one file, people are let in, a result is
# entered, signed by one person and released by another, amended, rejected, amended again, read, and carried away as a copy that
# anybody can check. Then the server is started again over the same file, and returns the same.
#
#     examples/day.sh [PROGRAM]
#
# Without PROGRAM it runs ./labdesk. The day stops with status 1 at the first reply that isn't the expected one. It prints the folder in
# which its files stay.
set -euo pipefail
unset CDPATH
case ${1:-} in
-h | --help)
    sed -n '2,/^[^#]/s/^# \{0,1\}//p' "${BASH_SOURCE[0]}"
    exit 0
    ;;
-*)
    echo "day.sh: the arguments are '[PROGRAM]'; '--help' says more" >&2
    exit 2
    ;;
esac
top=$(dirname "$(dirname "$(readlink -f "${BASH_SOURCE[0]}")")")
labdesk=${1:-$top/labdesk}
for tool in curl jq; do
    command -v "$tool" >/dev/null || { echo "day.sh: no command $tool on the path" >&2; exit 1; }
done
room=$(mktemp -d "${TMPDIR:-/tmp}/labdesk-day.XXXXXX")
file=$room/laboratories
server=
declare -A token=()

# --- what is said, and what is looked at

say() { printf '\n%s\n' "$*"; }

stop() {
    echo "day.sh: $1" >&2
    echo "day.sh: what it made so far is in $room" >&2
    exit 1
}

# Runs labdesk, and shows what it prints, which has to be this line, with this status.
runs() {
    local line=$1 status=$2 ended=0
    shift 2
    "$labdesk" "$@" >"$room/printed" || ended=$?
    echo "  labdesk $1: $(head -n 1 "$room/printed")"
    [ "$ended $(cat "$room/printed")" = "$status $line" ] || stop "labdesk $1 ended with status $ended; '$line' and status $status are expected"
}

# The beginning of a reply for people to read: long hexadecimal numbers by their first digits.
shortened() {
    sed 's/\([0-9a-f]\{4\}\)[0-9a-f]\{28,\}/\1../g; s/^\(.\{140\}\).*/\1../; q'
}

asks() { curl -sS --noproxy '*' --max-time 60 "$@"; }

# Sends a request of somebody to a laboratory: method, path, body of a POST. Shows the reply, which has to have this
# status, and leaves its body in $reply.
sends() {
    local status=$1 lab=$2 who=$3 method=$4 place=$5 words=() got
    [ -z "${token[$who]:-}" ] || words+=(-H "Authorization: LabSession ${token[$who]}")
    [ "$method" = GET ] || words+=(-d "$6")
    got=$(asks -o "$room/reply" -w '%{http_code}' "${words[@]}" "http://$address/labs/$lab$place") || stop "no reply to $method $place"
    reply=$(cat "$room/reply")
    printf '  %-4s %-4s %-23s %s  %s\n' "$who" "$method" "$place" "$got" "$(shortened <<<"$reply")"
    [ "$got" = "$status" ] || stop "status $status is expected: $reply"
}

gets() { sends 200 aqua "$1" GET "$2"; }

posts() { sends 200 aqua "$1" POST "$2" "$3"; }

# The same for what is to be refused, by this status and word.
is_refused() {
    local status=$1 word=$2
    shift 2
    sends "$status" aqua "$@"
    tells .error "$word"
}

# Looks at something in the last reply.
tells() {
    local told
    told=$(jq -r "$1" <<<"$reply") || stop "the reply isn't JSON: $reply"
    [ "$told" = "$2" ] || stop "'$2' is expected at $1, and not '$told'"
}

# --- what is done more than once

password_of() { echo "the word of $1 alone"; }

# Founds a laboratory: code, name, and the names of three founders.
founds() {
    local lab=$1 name=$2 founder who
    shift 2
    for founder in "$@"; do
        who=${founder%% *}
        who=${who,,}
        jq -nc --arg code "$who" --arg name "$founder" --arg password "$(password_of "$who")" '{$code, $name, $password}'
    done | jq -sc --arg name "$name" '{founders: ., $name}' >"$room/founding"
    runs "founded $lab" 0 found --file "$file" --lab "$lab" <"$room/founding"
}

starts_server() {
    : >"$room/listening"
    "$labdesk" serve --file "$file" --port 0 >"$room/listening" &
    server=$!
    until read -r _ address <"$room/listening"; do
        kill -0 "$server" 2>/dev/null || stop "the server ended"
        sleep 0.1
    done
    echo "  labdesk serve: listening $address"
}

# Stops the server, whatever it is at.
stops_server() {
    [ -z "$server" ] || { kill -KILL "$server" && wait "$server"; } 2>/dev/null || true
    server=
}
trap stops_server EXIT

# Somebody signs in: code and password.
signs_in() {
    unset "token[$1]"
    posts "$1" /open "$(jq -nc --arg code "$1" --arg password "$2" '{$code, $password}')"
    token[$1]=$(jq -r .token <<<"$reply")
}

# A person is enrolled: code, printed name, roles. Ann and bob give half of the first password each.
lets_in() {
    local who=$1 word
    posts ann /persons "$(jq -nc --arg code "$who" --arg name "$2" --arg roles "$3" '{$code, $name, roles: ($roles / " ")}')"
    posts ann /issue "{\"code\":\"$who\"}"
    word=$(jq -r .half <<<"$reply")
    posts bob /confirm "{\"code\":\"$who\"}"
    word+=$(jq -r .half <<<"$reply")
    signs_in "$who" "$word"
    tells .due true
    posts "$who" /password "$(jq -nc --arg old "$word" --arg new "$(password_of "$who")" '{$old, $new}')"
}

# The body of a signature of somebody under a version of record 1: meaning, and a rejection's reason. What is signed is what the
# version's digest names, as the signer reads it now.
signature() {
    local digest
    digest=$(asks -H "Authorization: LabSession ${token[$1]}" "http://$address/labs/aqua/records/1/versions/$2" | jq -r .digest)
    jq -nc --argjson version "$2" --arg digest "$digest" --arg meaning "$3" --arg code "$1" --arg password "$(password_of "$1")" \
        '{record: 1, $version, $digest, $meaning, $password, $code}' |
        if [ -z "${4:-}" ]; then cat; else jq -c --arg reason "$4" '. + {$reason}'; fi
}

signs() {
    posts "$1" /signatures "$(signature "$@")"
}

# What the server returns of the record: the record, its versions and the trail.
reads_all() {
    for place in /records/1 /records/1/versions/{1,2,3} '/trail?from=1&to=100'; do
        gets hal "$place"
        cp "$room/reply" "$room/$1$(tr '/?' __ <<<"$place")"
    done
}

# Tells for people what a version of the record is made of.
history() {
    jq -r 'def because: if .reason == "" then "" else " (\(.reason))" end;
        "    version \(.version) is \(.state): "
        + ([.rows[] | "\(.key) \(.value) \(.unit) by \(.person)" + because] | join(", ")) + "; "
        + ([.signatures[] | "\(.meaning) by \(.name)" + because] | join(", "))' "$@"
}

# --- the day

say "Two laboratories are founded in one file, each by three administrators of its own."
founds aqua "Aqua Lab" "Ann Ames" "Bob Bell" "Cid Cole"
founds brick "Brick Lab" "Ann Arp" "Max Moss" "Ned Noll"

say "A server is started over the file. Anybody may ask for a laboratory's card."
starts_server
sends 200 aqua - GET ""
tells .name "Aqua Lab"
sends 404 zinc - GET ""

say "Two administrators sign in. A wrong password is counted, and the fifth locks the account."
is_refused 401 credentials bob POST /open '{"code":"bob","password":"not the right one"}'
signs_in ann "$(password_of ann)"
signs_in bob "$(password_of bob)"

say "They let people in. A first password is in two halves, each given by another administrator, and is changed at once."
lets_in dan "Dan Day" "analyst reviewer"
lets_in fay "Fay Fox" reviewer
lets_in gus "Gus Gray" manager
lets_in hal "Hal Hill" inspector

say "The manager makes a form. An analyst may not."
form='{"form":"water","fields":[{"key":"lead","label":"Lead","required":true,"kind":"number","unit":"mg/L","decimals":2,"min":"0"}]}'
is_refused 403 role_wanted dan POST /forms "$form"
posts gus /forms "$form"

say "The analyst opens a record for a sample and enters what was measured. It is corrected with a reason, and both values stay."
posts dan /records '{"form":"water","sample":"S1"}'
posts dan /entries '{"record":1,"key":"lead","value":"7.05","unit":"mg/L"}'
is_refused 400 reason_wanted dan POST /entries '{"record":1,"key":"lead","value":"7.50","unit":"mg/L"}'
posts dan /entries '{"record":1,"key":"lead","value":"7.50","unit":"mg/L","reason":"misread scale"}'

say "He signs as the author. He can't review his own work; another person does, and so releases it."
signs dan 1 authorship
tells .state signed
is_refused 403 own_work dan POST /signatures "$(signature dan 1 review)"
signs fay 1 review
tells .state released

say "What is released is not altered: an amendment is another version, with its reason. The reviewer rejects it, and says why."
posts dan /amendments '{"record":1,"reason":"one decimal is meant","altered":[{"key":"lead","value":"7.5","unit":"mg/L"}]}'
signs dan 2 authorship
signs fay 2 rejection "the scale has two"
tells .state rejected

say "It is amended again, and released."
posts dan /amendments '{"record":1,"reason":"as the scale has it","altered":[{"key":"lead","value":"7.52","unit":"mg/L"}]}'
signs dan 3 authorship
signs fay 3 review
tells .state released

say "The inspector reads everything that was: each version with its entries and signatures, and the trail of who did what, when."
reads_all before
history "$room"/before_records_1_versions_*
tells '[.trail[] | select(.person == "fay" and .action == "sign") | .subject] | join(" ")' "1/1/review 1/2/rejection 1/3/review"
gets hal "/copy?from=1&to=100"
sed 2d "$room/reply" >"$room/copy-of-hal"

say "The other laboratory knows nothing of it. Its own ann signs in; the session of aqua's ann isn't valid there."
sends 401 brick ann GET /persons
tells .error no_session
unset "token[ann]"
sends 200 brick ann POST /open "$(jq -nc --arg password "$(password_of ann)" '{code: "ann", $password}')"
token[ann]=$(jq -r .token <<<"$reply")
sends 200 brick ann GET "/trail?from=1&to=100"
tells '[.trail[].action] | join(" ")' "found open"

say "The server is killed. The file has all that was answered: a copy is made from it, and checked."
stops_server
"$labdesk" copy --file "$file" --lab aqua --from 1 --to 100 >"$room/copy.csv" || stop "no copy was made"
sed 2d "$room/copy.csv" | cmp -s - "$room/copy-of-hal" || stop "the copy isn't the one that the inspector was given"
runs "good 1 3 4 6" 0 check <"$room/copy.csv"

say "Anybody can check it, anywhere. Where one figure of a result was changed, it is no longer good."
sed 's/,7\.52,/,7.25,/' "$room/copy.csv" >"$room/altered.csv"
runs "bad digest 13" 1 check <"$room/altered.csv"

say "The server is started again, and returns the same, byte for byte. Even the sessions go on."
starts_server
reads_all after
for before in "$room"/before*; do
    cmp -s "$before" "${before/before/after}" || stop "$(basename "$before") was another reply before"
done
stops_server

say "So the day ends. Its file, a SQLite database, and the copy are in $room."
