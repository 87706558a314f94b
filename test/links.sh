#!/bin/sh
# What the documents name is there: the targets of their links, the files and folders, the functions and definitions, and
# each line that they quote of a source.
#
# usage: test/links.sh [DOCUMENT..]
# Without words it looks at each document of the repository. Its last line is 'links: N passed, M failed'. It takes a POSIX
# shell and the tools of a base system.
#
# In a document
#   [text](FILE#heading)     a link: the file is there, and has the heading
#   `crates/NAME/src/x.rt`   a path from the top of the repository, in code: it is there
#   src/x.rt, specs/X.antt   a file of some crate, in the text
#   `FILE`, `name`           a file and what it defines: the name is in the file
#   `FILE`, `name`, `label`  a file of Rattle, functions in it, and labels of clauses: a clause of one of them has each label
#   `src/x.rt`, `X.edit`     below a heading that is a crate's name, a file of that crate and an edit that it must refuse
#   `a::b`, `CamelCase`, `snake_case`   in a document on the code, a name: some source defines the last part
#   ```antt FILE             a quotation: each line is in the file, in this order; '..' is for lines left out
#   a paragraph              has 700 characters at most, a line 1,000
# In an edit that must fail
#   promise: TEXT            is there
#   clause: src/x.rt, name   is there; the file of its crate (or of the crate that is named first) has the name
#   test: WORDS              each file that it names is there
set -u

cd "$(dirname "$0")/.." || exit 1
room=$(mktemp -d) || exit 1
trap 'rm -rf "$room"' EXIT
trap 'exit 1' HUP INT PIPE TERM

if [ $# -eq 0 ]; then
    find . -name '*.md' ! -path '*/out/*' ! -path './.git/*' | sed 's|^\./||' | sort > "$room/documents"
else
    for document in "$@"; do
        echo "$document"
    done > "$room/documents"
fi

# What is named, a line each: the document, its line, the kind, and one or two words, with tabs between.
cat > "$room/named.awk" <<'AWK'
function told(kind, first, second) {
    printf "%s\t%d\t%s\t%s\t%s\n", FILENAME, FNR, kind, first, second
}
# The names of the sources: two parts, capitals within, or an underscore.
function is_name(word) {
    return word ~ /^[A-Za-z_][A-Za-z0-9_]*(::[A-Za-z_][A-Za-z0-9_]*)+$/ \
        || word ~ /^[A-Z][a-z0-9]+([A-Z][a-z0-9]*)+$/ \
        || word ~ /^[a-z][a-z0-9]*(_[a-z0-9]+)+$/
}
function is_source(word) {
    return word ~ /^[a-z]+\/.*\.(rt|antt|py)$/
}
# What followed a source is told together: functions, and labels of their clauses.
function ended() {
    if (source ~ /\.rt$/ && group != "") told("clauses", source, group)
    source = ""
    group = ""
}
# A path of the crate of this heading, from the top of the repository.
function of_crate(word) {
    return (crate != "" && word ~ /^(src|specs|proofs)\//) ? "crates/" crate "/" word : word
}
FNR == 1 { quoting = 0; fenced = 0; crate = ""; on_code = (FILENAME ~ /^docs\/(ARCHITECTURE|CHANGING|DECISIONS|GLOSSARY|MEASURED|PROOF|PROVED)\.md$/) }
/^ *```/ {
    if (fenced) { fenced = 0; quoting = 0; next }
    fenced = 1
    file = $2
    quoting = (file != "")
    if (quoting) told("quoted", file, "")
    next
}
fenced {
    if (quoting) {
        text = $0
        gsub(/^[ \t]+|[ \t]+$/, "", text)
        if (text != "" && text != "..") told("line", file, text)
    }
    next
}
/^#+ / { crate = ($0 ~ /^#+ `[a-z_]+`$/) ? substr($2, 2, length($2) - 2) : "" }
# An indented line is a command or what it shows.
/^    / { next }
{
    rest = $0
    while (match(rest, /\]\([^) ]+\)/)) {
        target = substr(rest, RSTART + 2, RLENGTH - 3)
        if (target !~ /^[a-z]+:/) told("link", target, "")
        rest = substr(rest, RSTART + RLENGTH)
    }
    count = split($0, parts, "`")
    source = ""
    for (i = 1; i <= count; i++) {
        if (i % 2 == 1) {
            text = parts[i]
            while (match(text, /(src|specs|proofs)\/[A-Za-z_\/]+\.(rt|antt)/)) {
                told("some", substr(text, RSTART, RLENGTH), "")
                text = substr(text, RSTART + RLENGTH)
            }
            # A file is followed by what it defines, as `FILE`, `name` and `name`.
            if (source != "" && parts[i] !~ /^(, |, and | and )$/) ended()
            continue
        }
        span = of_crate(parts[i])
        if (span ~ /^[a-z_.0-9]+\.edit$/) { told("edit", crate == "" ? "*" : crate, span); ended(); continue }
        words = split(span, word, " ")
        for (j = 1; j <= words; j++) {
            if (word[j] ~ /^[.A-Za-z_-]+\// && word[j] !~ /[*$]|NAME|(^|\/)out\//) told("path", word[j], "")
        }
        if (is_source(span)) { ended(); source = span; continue }
        if (source != "" && span ~ /^[A-Za-z_][A-Za-z0-9_:]*$/) { told("in", source, span); group = group " " span; continue }
        ended()
        if (on_code && is_name(span)) told("name", span, "")
    }
    ended()
}
AWK
while read -r document; do
    awk -f "$room/named.awk" "$document"
done < "$room/documents" > "$room/named"

# The paragraphs and lines that are too long, and how many were looked at. A row of a table is no paragraph, an item of a list is one.
cat > "$room/long.awk" <<'AWK'
function ended() {
    if (size > 700) printf "%s\t%d\ta paragraph of %d characters\n", FILENAME, first, size
    if (size > 0) paragraphs++
    size = 0
}
length($0) > 1000 { printf "%s\t%d\ta line of %d characters\n", FILENAME, FNR, length($0) }
/^ *```/ { ended(); fenced = !fenced; next }
fenced || /^#/ || /^\|/ || /^ *$/ || (/^    / && size == 0) { ended(); next }
/^ *([-*]|[0-9]+\.) / { ended() }
{ if (size == 0) first = FNR; size += length($0) + (size > 0) }
END { ended(); printf "%s\t%d\t\n", FILENAME, paragraphs }
AWK
while read -r document; do
    LC_ALL=C.UTF-8 awk -f "$room/long.awk" "$document"
done < "$room/documents" > "$room/long"

# What the sources define: items, fields, variants, clauses, and the definitions and lemmas of antt.
find crates \( -name '*.rt' -o -name '*.antt' \) ! -path '*/out/*' -exec cat {} + | awk '
{
    gsub(/\([^)]*\)/, "", $0)
    for (i = 1; i < NF; i++) {
        if ($i ~ /^(fn|struct|enum|trait|const|static|mod|type|ghost|ensures|requires|record|data|abbrev|pub|unfoldable)$/) {
            name = $(i + 1)
            sub(/[^A-Za-z0-9_].*$/, "", name)
            if (name != "") print name
        }
    }
    name = $1
    if (name ~ /^[A-Za-z_][A-Za-z0-9_]*[:,(]?$/ && (NF == 1 || $2 ~ /^[:={]/ || name ~ /[:,(]$/)) {
        sub(/[^A-Za-z0-9_].*$/, "", name)
        print name
    }
}' | sort -u > "$room/defined"
for crate in crates/*/; do
    basename "$crate"
done >> "$room/defined"
# What the header of the C library declares.
grep -o -w 'udfburn_[a-z_]*' library/udfburn.h | sort -u >> "$room/defined"
# The modules of the Python client, and what the archive's catalogue is made of.
find clients/python/udfburn -name '*.py' -exec basename {} .py \; >> "$room/defined"
sed -nE 's/^CREATE (TABLE|VIRTUAL TABLE|VIEW|INDEX|EXTENSION)( IF NOT EXISTS)? ([a-z_]*)[ ;]?.*/\3/p' clients/python/udfburn/archive/schema.py >> "$room/defined"

suite=links
# shellcheck source=test/shell.sh
. test/shell.sh

# unlabelled FILE NAME..: those of the names that are neither defined in the file nor a label in the contract of one that is.
unlabelled() {
    file=$1
    shift
    awk -v names="$*" '
        BEGIN { count = split(names, name, " "); for (i = 1; i <= count; i++) sub(/^.*::/, "", name[i]) }
        match($0, /(^| )(fn|struct|enum|trait|const|static|type) [A-Za-z_0-9]+/) && !/^ *\/\// {
            owner = substr($0, RSTART, RLENGTH)
            sub(/^.* /, "", owner)
            defined[owner] = 1
        }
        /^ *(requires|ensures|ghost) [a-z_0-9]+/ {
            label = $2
            sub(/:$/, "", label)
            labels[owner, label] = 1
            if ($1 == "ghost") defined[label] = 1
        }
        END {
            for (i = 1; i <= count; i++) {
                found = name[i] in defined
                for (j = 1; j <= count; j++) if ((name[j], name[i]) in labels) found = 1
                if (!found) print name[i]
            }
        }' "$file"
}

# heading FILE NAME: whether a heading of the file is shown under this name.
heading() {
    sed -n 's/^#\{1,6\} *//p' "$1" | tr 'A-Z ' 'a-z-' | sed 's/[^a-z0-9_-]//g' | grep -qx -- "$2"
}

tab=$(printf '\t')
while IFS="$tab" read -r document line why; do
    if [ -n "$why" ]; then fail "$document:$line: $why"; else passed=$((passed + line)); fi
done < "$room/long"
while IFS="$tab" read -r document line kind first second; do
    where="$document:$line"
    case $kind in
        link)
            target=${first%%#*}
            anchor=
            case $first in *'#'*) anchor=${first#*#} ;; esac
            if [ -z "$target" ]; then
                file=$document
            else
                file=$(dirname "$document")/$target
            fi
            if ! [ -e "$file" ]; then
                fail "$where: no file $first"
            elif [ -n "$anchor" ] && ! heading "$file" "$anchor"; then
                fail "$where: no heading $first"
            else
                pass
            fi
            ;;
        path)
            # A path begins with what is at the top; other words with a slash are no paths of the repository.
            if ! [ -e "${first%%/*}" ]; then
                continue
            fi
            if [ -e "$first" ]; then pass; else fail "$where: no file $first"; fi
            ;;
        edit)
            found=
            for file in crates/$first/must-fail/"$second" test/edits/$first/"$second"; do
                if [ -e "$file" ]; then found=$file; fi
            done
            if [ -n "$found" ]; then pass; else fail "$where: no edit $second in crate $first"; fi
            ;;
        some)
            found=
            for file in crates/*/"$first"; do
                if [ -e "$file" ]; then found=$file; fi
            done
            if [ -n "$found" ]; then pass; else fail "$where: no crate has $first"; fi
            ;;
        in)
            if ! [ -e "${first%%/*}" ]; then
                continue
            fi
            if [ -e "$first" ] && grep -qw -- "${second##*::}" "$first"; then
                pass
            else
                fail "$where: no $second in $first"
            fi
            ;;
        clauses)
            if ! [ -e "$first" ]; then
                continue
            fi
            # shellcheck disable=SC2086
            found=$(unlabelled "$first" $second | tr '\n' ' ')
            if [ -z "$found" ]; then pass; else fail "$where: no clause $found of what is named before it in $first"; fi
            ;;
        name)
            if grep -qx -- "${first##*::}" "$room/defined"; then pass; else fail "$where: no $first in the sources"; fi
            ;;
        quoted)
            from=0
            if [ -e "$first" ]; then pass; else fail "$where: no file $first"; fi
            ;;
        line)
            # The first line after the one before that has this text.
            at=$(TEXT=$second awk -v from="$from" 'NR > from && index($0, ENVIRON["TEXT"]) { print NR; exit }' "$first" 2> "$room/errors")
            if [ -n "$at" ]; then
                from=$at
                pass
            else
                fail "$where: not in $first: $second"
            fi
            ;;
    esac
done < "$room/named"

# What the edits say of themselves: the clauses that refuse them, and the tests.
find crates/*/must-fail test/edits -name '*.edit' | sort | xargs awk '
    function ended() {
        if (edit != "" && !promised) print edit "\tpromise\t\t"
        if (edit != "" && !stated) print edit "\tclause\t\t"
    }
    FNR == 1 {
        ended()
        edit = FILENAME
        promised = stated = 0
        count = split(FILENAME, names, "/")
        crate = names[1] == "crates" ? names[2] : names[count - 1]
    }
    END { ended() }
    /^promise: / { promised = 1 }
    /^clause: / {
        stated = 1
        count = split(substr($0, 9), words, /[,;] | and /)
        owner = crate
        path = ""
        for (i = 1; i <= count; i++) {
            word = words[i]
            if (word ~ /^src\/[a-z_\/]+\.rt$/) { path = "crates/" owner "/" word; print FILENAME "\tclause\t" path "\t" }
            else if (path != "" && word ~ /^[a-z_]+$/ && word != "there") print FILENAME "\tclause\t" path "\t" word
            else if (path == "" && word ~ /^[a-z_]+$/) owner = word
        }
    }
    /^test: / {
        count = split(substr($0, 7), words, /[, ]+/)
        for (i = 1; i <= count; i++)
            if (words[i] ~ /^test\/[a-z_\/]+(\.sh|\.py)?$/) print FILENAME "\ttest\t" words[i] "\t"
            else if (words[i] ~ /^[a-z_]+\.txt$/) print FILENAME "\ttest\t" words[i] "\t"
    }' > "$room/edits"
while IFS="$tab" read -r edit kind path word; do
    case $path in
        '')
            fail "$edit: no line '$kind:'"
            continue
            ;;
        *.txt) found=$(ls crates/*/data/"$path" 2> "$room/errors") ;;
        *) found=$(ls -d "$path" 2> "$room/errors") ;;
    esac
    if [ -z "$found" ]; then
        fail "$edit: $kind: no file $path"
    elif [ -n "$word" ] && ! grep -qw -- "$word" "$path"; then
        fail "$edit: $kind: no $word in $path"
    else
        pass
    fi
done < "$room/edits"

# That nothing was looked at is a failure too.
if [ "$passed" -eq 0 ]; then
    fail "nothing is named in the documents"
fi
counted
