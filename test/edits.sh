#!/bin/sh
# The must-fail edits that the gate leaves out: the prover refuses each of them too.
#
# usage: test/edits.sh [CRATE..]
#        test/edits.sh --since COMMIT
#        test/edits.sh --slice NUMBER
#        test/edits.sh --behind
#        test/edits.sh --next NUMBER
#        test/edits.sh --count
#        test/edits.sh --outdated
#        test/edits.sh --list [CRATE..]
#        test/edits.sh --promises [CRATE..]
# Without arguments it tries the edits of every crate; with --since, those of the crates whose files differ from the commit; with
# --slice, so many that follow one another, from a place on that the hash of the last commit chooses: of the crates that --behind
# names, if there are any, else of all. The last line is then 'edits: N passed, M failed'. A crate of which all edits were refused is
# noted in test/edits/tried with a sum of its contracts: its specs/, and the signatures in its src/. --behind names the crates whose
# contracts are others by now. It and the options after it try no edit. --next prints what --slice would try, which .ci/run has rt ci
# try. --count prints how many edits each crate has in must-fail/ and here. --outdated names those of both whose text is not in its
# file exactly once, and its status is 1 if there is one. --list prints them all, each with the promise that it breaks, the clause that refuses it, and the test that refuses it too;
# 'gate' is at those of must-fail/. --promises prints each law by its comment, and each promise that edits name, with its clause and
# how many edits break it. It takes a POSIX shell, the tools of a base system, and to try edits the Rattle kit.
#
# The edits are in test/edits/CRATE, and those that change a definition in test/edits/laws/CRATE. They are tried on a copy of
# the tree in which they are in crates/CRATE/must-fail, by rt ci, which takes what it has passed on this machine.
set -u

cd "$(dirname "$0")/.." || exit 1
record=test/edits/tried
room=$(mktemp -d) || exit 1
trap 'rm -rf "$room"' EXIT
trap 'exit 1' HUP INT PIPE TERM

# crates: the crates that have edits here.
crates() {
    for folder in test/edits/*/ test/edits/laws/*/; do
        basename "$folder"
    done | grep -vx laws | LC_ALL=C sort -u
}

# edits CRATE: the edits of a crate that are here.
edits() {
    for edit in "test/edits/$1"/*.edit "test/edits/laws/$1"/*.edit; do
        if [ -f "$edit" ]; then echo "$edit"; fi
    done
}

# contracts CRATE: a sum of what callers of a crate know: its specs, and the signatures of its functions with their clauses. What
# is imported is no part of it.
contracts() {
    {
        find "crates/$1/specs" -name '*.antt' 2> /dev/null | LC_ALL=C sort | xargs -r cat | grep -v '^use '
        find "crates/$1/src" -name '*.rt' | LC_ALL=C sort | xargs awk '
            /(^| )fn [a-z_]/ && !/^ *\/\// { signature = 1 }
            signature || (/^ *ghost / && !/^ *ghost use /) { print }
            signature && (/[{;]$/ || /fn .*}$/) { signature = 0 }'
    } | sha256sum | cut -c 1-16
}

# behind: the crates that have edits here, and whose contracts are not those for which all of these were tried.
behind() {
    for crate in $(crates); do
        grep -qxF "$crate $(contracts "$crate")" "$record" || echo "$crate"
    done
}

# note CRATE..: notes that all edits of these crates were refused.
note() {
    for crate; do
        grep -v "^$crate " "$record" > "$room/record"
        echo "$crate $(contracts "$crate")" >> "$room/record"
        LC_ALL=C sort "$room/record" > "$record"
    done
}

# slice NUMBER: so many edits, which follow one another.
slice() {
    from=$(behind)
    for crate in ${from:-$(crates)}; do edits "$crate"; done > "$room/from"
    start=$(printf '%d' "0x$(git rev-parse HEAD | cut -c 1-8)")
    awk -v number="$1" -v start="$start" '{ edit[NR - 1] = $0 } END {
        for (i = 0; i < number && i < NR; i++) print edit[(start + i) % NR] }' "$room/from"
}

# number FOLDER: how many edits are in a folder.
number() {
    find "$1" -maxdepth 1 -name '*.edit' 2> /dev/null | wc -l
}

# count: the edits of each crate, in must-fail/, in test/edits and in test/edits/laws.
count() {
    printf '%-14s %9s %10s %5s\n' crate must-fail test/edits laws
    for folder in crates/*/; do
        crate=$(basename "$folder")
        here=$(number "crates/$crate/must-fail")
        there=$(number "test/edits/$crate")
        laws=$(number "test/edits/laws/$crate")
        if [ $((here + there + laws)) -gt 0 ]; then echo "$crate $here $there $laws"; fi
    done | awk '{ printf "%-14s %9d %10d %5d\n", $1, $2, $3, $4; here += $2; there += $3; laws += $4 }
        END { printf "%-14s %9d %10d %5d\n", "all", here, there, laws }'
}

# outdated: names the edits, in must-fail/ and here, whose text is not in its file exactly once. A further pair of texts is about
# what the earlier ones made.
outdated() {
    find crates/*/must-fail test/edits -name '*.edit' | LC_ALL=C sort | xargs awk '
        function contents(path,    line, text) {
            while ((getline line < path) > 0) text = text line "\n"
            close(path)
            return text
        }
        FNR == 1 { count = split(FILENAME, names, "/"); crate = names[1] == "crates" ? names[2] : names[count - 1]; text = "" }
        /^file: / { text = contents("crates/" crate "/" substr($0, 7)) }
        /^old: / { old = substr($0, 6) }
        /^new: / {
            at = index(text, old)
            if (at == 0 || index(substr(text, at + 1), old) > 0) { print FILENAME ": its text is not in the file exactly once: " old; found = 1 }
            else text = substr(text, 1, at - 1) substr($0, 6) substr(text, at + length(old))
        }
        END { exit found }' || return 1
}

# list [CRATE..]: prints each edit with what its lines say of it. The prover and rt read none of these lines.
list() {
    if [ $# -eq 0 ]; then
        for folder in crates/*/; do set -- "$@" "$(basename "$folder")"; done
    fi
    for crate; do
        for edit in "crates/$crate/must-fail"/*.edit $(edits "$crate"); do
            [ -f "$edit" ] || continue
            case $edit in crates/*) gate=' (gate)' ;; *) gate= ;; esac
            echo "$crate: $(basename "$edit" .edit)$gate"
            sed -n -E 's/^(promise|clause|test): /    &/p' "$edit"
        done
    done
}

# laws CRATE..: prints the public functions without parameters and with an empty body, whose contracts are theorems, by their comments.
laws() {
    for crate; do
        find "crates/$crate/src" -name '*.rt' | LC_ALL=C sort | xargs awk -v crate="$crate" '
            FNR == 1 { said = ""; name = "" }
            /^\/\/\/ / { said = said (said == "" ? "" : " ") substr($0, 5); next }
            /^pub fn [a-z_]+\(\)$/ { name = $3; sub(/\(\)/, "", name); next }
            /^\{\}$/ && name != "" { path = FILENAME; sub(/^crates\/[^\/]*\//, "", path); printf "%s: %s\n    law: %s, %s\n", crate, said, path, name }
            /^[^ ]/ || /^$/ { said = ""; name = "" }'
    done
}

# promises [CRATE..]: prints the laws, and each promise that edits name, with its clause and the number of these edits.
promises() {
    if [ $# -eq 0 ]; then
        for folder in crates/*/; do set -- "$@" "$(basename "$folder")"; done
    fi
    laws "$@"
    list "$@" | awk '
        /^[a-z_]+: / { crate = $1; promise = ""; edits++; next }
        /^    promise: / { promise = crate " " substr($0, 14); if (!(promise in number)) order[++count] = promise; number[promise]++; named++; next }
        /^    clause: / && promise != "" && !(promise in clause) { clause[promise] = substr($0, 13) }
        END {
            for (i = 1; i <= count; i++)
                printf "%s\n    clause: %s\n    edits: %d\n", order[i], clause[order[i]], number[order[i]]
            printf "promises: %d, named by %d of %d edits\n", count, named, edits
        }'
}

# refuse WORD..: says what is wrong with the words, and ends.
refuse() {
    echo "edits: $*"
    echo 'edits: 0 passed, 1 failed'
    exit 1
}

# changed COMMIT: the crates that have edits here, and whose files or edits differ from the commit.
changed() {
    for crate in $(crates); do
        git diff --quiet "$1" -- "crates/$crate" "test/edits/$crate" "test/edits/laws/$crate" || echo "$crate"
    done
}

sliced=
case ${1:-} in
    --count)
        count
        exit 0
        ;;
    --outdated)
        outdated
        exit
        ;;
    --behind)
        behind
        exit 0
        ;;
    --next)
        case ${2:-} in '' | *[!0-9]*) refuse 'usage: test/edits.sh --next NUMBER' ;; esac
        slice "$2"
        exit 0
        ;;
    --list | --promises)
        printed=${1#--}
        shift
        for crate; do
            [ -d "crates/$crate" ] || refuse "there is no crate $crate"
        done
        "$printed" "$@"
        exit 0
        ;;
    --slice)
        case ${2:-} in '' | *[!0-9]*) refuse 'usage: test/edits.sh --slice NUMBER' ;; esac
        [ $# -eq 2 ] || refuse 'usage: test/edits.sh --slice NUMBER'
        sliced=yes
        slice "$2" > "$room/edits"
        tried=$(xargs -n 1 dirname < "$room/edits" | xargs -n 1 basename | LC_ALL=C sort -u)
        later=$(behind)
        # shellcheck disable=SC2086
        [ -z "$later" ] || echo "edits: contracts of" $later "changed since all their edits were tried: test/edits.sh NAME tries them"
        sed 's/^/edits: tries /' "$room/edits"
        ;;
    --since)
        [ $# -eq 2 ] || refuse 'usage: test/edits.sh --since COMMIT'
        git rev-parse --quiet --verify "$2^{commit}" > /dev/null || refuse "there is no commit $2"
        tried=$(changed "$2")
        all=$(find test/edits -name '*.edit' | wc -l)
        left=$(for crate in $tried; do edits "$crate"; done | wc -l)
        echo "edits: $((all - left)) of $all left out, of crates that do not differ from $2"
        if [ -z "$tried" ]; then
            echo 'edits: 0 passed, 0 failed'
            exit 0
        fi
        ;;
    -*) refuse "there is no option $1" ;;
    *)
        tried=${*:-$(crates)}
        for crate in $tried; do
            [ -n "$(edits "$crate")" ] || refuse "there are no edits of a crate $crate"
        done
        ;;
esac
[ -n "$sliced" ] || for crate in $tried; do edits "$crate"; done > "$room/edits"

mkdir "$room/tree" || exit 1
tar -cf - --exclude=out --exclude=must-fail crates crates.txt HANDLES | tar -xf - -C "$room/tree" || exit 1
total=$(wc -l < "$room/edits")
while read -r edit; do
    folder=$room/tree/crates/$(basename "$(dirname "$edit")")/must-fail
    mkdir -p "$folder" && cp "$edit" "$folder/" || exit 1
done < "$room/edits"

# One line for each edit, which says that it was refused or what came instead; other lines are of the proofs.
# shellcheck disable=SC2086
(cd "$room/tree" && rt ci $tried) > "$room/told" 2>&1
passed=$(grep -c '^rt: must-fail .*: refused, as it must be' "$room/told")
grep '^rt: ' "$room/told" | grep -v ': refused, as it must be'
if [ "$passed" -eq 0 ]; then tail -n 20 "$room/told"; fi
failed=$((total - passed))
# shellcheck disable=SC2086
if [ "$failed" -eq 0 ] && [ -z "$sliced" ]; then note $tried; fi
echo "edits: $passed passed, $failed failed"
[ "$failed" -eq 0 ]
