#!/usr/bin/env bash
# Compares the documents with the sources and, where build/wol is there, with what the program prints; tests/trace.sh tries what they say
# of traces.
# usage: tests/documents.sh     it prints each thing that is wrong, and ends with 1 where there is one
# needs: awk python3
set -eu
cd "$(dirname "$0")/.."
export LC_ALL=C.UTF-8
top=$PWD
documents=(README.md CONTRIBUTING.md CHANGELOG.md docs/*.md)
folder=$(mktemp -d)
trap 'rm -r "$folder"' EXIT

# ---- What the sources say

# commands: the program's commands, as the command line is told of them
commands() {
    cat crates/*/src/application.rt | sed -n 's/.*Command::new(alloc, "\([a-z-]*\)").*/\1/p' | grep -vx wol
}

# statuses: the exit statuses of the program
statuses() {
    sed -n 's/.*IsCause \([0-9]\{1,2\}\)$/\1/p' crates/wol_run/specs/Causes.antt
}

# labels CRATE FUNCTION: the labels of the clauses of a public function
labels() {
    awk -v name="$2" '
        $0 ~ "pub fn " name "[<(]" { inside = 1 }
        inside && /^ *[{]$/ { inside = 0 }
        inside && /^ *(requires|ensures) / { print }
    ' crates/"$1"/src/*.rt | sed -n 's/^ *\(requires\|ensures\) \([a-z_]\{1,\}\) {.*/\2/p'
}

# ---- What the documents say

# section FILE HEADING: the lines below a heading that begins so, up to the next one
section() {
    awk -v heading="$2" '/^#/ { inside = (index($0, heading) == 1); next } inside' "$1"
}

# told: the words in backquotes in the second column of the tables that come in
told() {
    awk -F '|' '/^[|]/ { n = split($3, words, "\140"); for (k = 2; k <= n; k += 2) print words[k] }' | grep -x '[a-z_]*' | sort -u
}

# ---- The checks: each prints what is wrong

check_sizes() {
    local document
    [ "$(wc -c <README.md)" -le 8192 ] || echo "README.md has over 8 KiB"
    for document in "${documents[@]}"; do
        [ "$document" != docs/CLAUSES.md ] || continue
        [ "$(wc -L <"$document")" -le 200 ] || echo "$document has a line over 200 columns"
        awk -v document="$document" '
            function end_paragraph() { if (words > 120) print document ":" start ": a paragraph of " words " words"; words = 0 }
            /^```/ { code = !code; end_paragraph(); next }
            code || /^$/ || /^#/ || /^    / { end_paragraph(); next }
            /^[|]/ || /^[-*] / || /^[0-9]+[.] / { end_paragraph() }
            { if (words == 0) start = NR; words += NF }
            END { end_paragraph() }
        ' "$document"
    done
}

check_files() {
    local document file sample
    for document in "${documents[@]}"; do
        {
            sed -n 's/[^]]*](\([^):]*\))/\1\n/gp' "$document" | sed -n '/^[A-Za-z0-9_./-]*$/p'
            grep -o '\b\(crates\|docs\|samples\|bench\|tests\|completions\)/[A-Za-z0-9_./-]*' "$document" || true
        } | sort -u | while read -r file; do
            file=${file%.}
            case $file in '' | *NAME*) continue ;; esac
            [ -e "$file" ] || [ -e "$(dirname "$document")/$file" ] || echo "$document names $file, which isn't there"
        done
    done
    for sample in samples/*; do
        grep -q "$sample" README.md Makefile docs/*.md || echo "$sample is used by nothing"
    done
}

check_commands() {
    local command file key status
    for command in $(commands); do
        section README.md '## Commands' | grep -q "^| .wol $command\b" || echo "README.md has no row for wol $command"
        grep -q "^## wol $command\$" docs/USAGE.md || echo "docs/USAGE.md has no part for wol $command"
        for file in docs/wol.1 completions/wol.bash completions/_wol; do
            grep -q "\b$command\b" "$file" || echo "$file doesn't have $command"
        done
    done
    for key in $(sed -n 's/^key_text .* = codes "\([a-z_]*\)"$/\1/p' crates/wol_config/specs/Keys.antt); do
        for file in docs/wol.toml.5 docs/FORMATS.md; do
            grep -q "\b$key\b" "$file" || echo "$file doesn't have the key $key"
        done
    done
    for status in $(statuses); do
        section docs/USAGE.md '## Exit statuses' | grep -q "^| $status |" || echo "docs/USAGE.md has no row for status $status"
        grep -qx ".B $status" docs/wol.1 || echo "docs/wol.1 doesn't have status $status"
    done
}

check_crates() {
    local crate
    while read -r crate; do
        grep -q "\b$crate\b" docs/ARCHITECTURE.md || echo "docs/ARCHITECTURE.md has no layer for $crate"
        grep -qh "\b$crate\b" docs/PROOF.md docs/CLAUSES.md || echo "neither docs/PROOF.md nor docs/CLAUSES.md has $crate"
        grep -q "^| $crate |" bench/GATE.md || echo "bench/GATE.md has no row for $crate"
    done < <(sed -n 's/^\([a-z_]*\)[ :].*/\1/p' crates.txt | grep -v '_tests$')
}

check_versions() {
    local document kit version
    version=$(sed -n 's/^## \([0-9.]*\).*/\1/p' CHANGELOG.md | head -n 1)
    grep -q "Version $version\." README.md || echo "README.md isn't of version $version"
    for document in docs/wol.1 docs/wol.toml.5; do
        grep -q "\"wol $version\"" "$document" || echo "$document isn't of version $version"
    done
    command -v rt >/dev/null || return 0
    kit=$(rt version | cut -d ' ' -f 1)
    for document in README.md CONTRIBUTING.md docs/PROOF.md; do
        grep -q "$kit\b" "$document" || echo "$document doesn't name the kit $kit"
    done
}

check_clauses() {
    local crate function have label
    docs/clauses.py | cmp -s - docs/CLAUSES.md || echo "docs/CLAUSES.md isn't what the sources say: make clauses makes it"
    # the contract of the program is one record, of which each field has a row
    for label in $(awk '/^pub record Run / { inside = 1 } inside && /^  pub [a-z_]+ :/ { print $2 }' crates/wol_run/specs/Run.antt); do
        section docs/PROOF.md '### `wol_run::run`' | told | grep -qx "$label" || echo "docs/PROOF.md has no row for $label of wol_run::run"
    done
    while read -r function; do
        crate=${function%%::*}
        [ -d "crates/$crate" ] || { echo "docs/PROOF.md has a part on $function, and there is no such crate"; continue; }
        have=$(labels "$crate" "${function##*::}" | sort -u)
        [ -n "$have" ] || echo "docs/PROOF.md has a part on $function, which has no clause"
        # a row may also be of a field of a record that a clause names
        for label in $(section docs/PROOF.md "### \`$function\`" | told); do
            grep -qx "$label" <<<"$have" || grep -qh "^  pub $label :" crates/*/specs/*.antt \
                || echo "docs/PROOF.md has a row for $label of $function, which has no such clause"
        done
    done < <(sed -n 's/^### `\([a-z_]*::[A-Za-z_:]*\)`.*/\1/p' docs/PROOF.md)
    while read -r crate; do
        for label in $(section docs/PROOF.md "### Crate \`$crate\`" | told); do
            grep -qE "\b(requires|ensures|ghost|fn|struct|enum|trait) $label\b" crates/"$crate"/src/*.rt || echo "docs/PROOF.md names $label of $crate, which isn't there"
        done
    done < <(awk '/^### Crate / { gsub(/[^a-z_]/, "", $3); print $3 }' docs/PROOF.md)
}

# the session of NBD clients in docs/USAGE.md, as it stands there, where they are installed: each line that is shown is among those printed
check_session() {
    local tool line shown row at=$folder/session front port
    for tool in socat nbdinfo nbdcopy qemu-io qemu-img mkfs.ext2 debugfs; do
        command -v "$tool" >/dev/null || { echo "tests/documents.sh: no $tool, so the session of NBD clients wasn't tried" >&2; return 0; }
    done
    mkdir -p "$at/letters"
    cp samples/wol.toml "$at"
    echo "a letter that is kept" >"$at/letters/first"
    print_example "$at" "wol format" >/dev/null
    (cd "$at" && exec socat UNIX-LISTEN:usr0.sock,mode=600,fork EXEC:"$top/build/wol serve usr0" 2>socat.log) &
    front=$!
    while read -r line; do
        for _ in {1..300}; do # (until the session before has ended, and the socket is there)
            [ -S "$at/usr0.sock" ] && print_example "$at" "wol check" | grep -q '^usr0 ok' && break
            sleep 0.1
        done
        (cd "$at" && PATH=$PATH:/sbin:/usr/sbin eval "${line//\/run\/wol/$at}") >"$at/printed" 2>/dev/null </dev/null || echo "docs/USAGE.md, as it was run, fails: $line"
        shown=$(awk -v line="    \$ $line" '$0 == line { inside = 1; next } inside && (/^    \$/ || !/^    /) { exit } inside { print substr($0, 5) }' docs/USAGE.md)
        while IFS= read -r row; do
            [ -n "$row" ] || continue
            row=${row//\/run\/wol/$at}
            grep -qF -- "${row##*  }" "$at/printed" || echo "docs/USAGE.md, as it was run, shows what isn't printed by $line: $row"
        done <<<"$shown"
    done < <(sed -n 's/^    \$ \(\(nbdinfo\|nbdcopy\|qemu-\|mkfs\|cmp\).*\)/\1/p' docs/USAGE.md)
    kill "$front"
    wait "$front" || true
    line=$(sed -n 's/^    \$ \(printf .*wol nbd.*\)/\1/p' docs/USAGE.md)
    shown=$(awk -v line="    \$ printf" 'index($0, line) == 1 { getline; print substr($0, 5); exit }' docs/USAGE.md)
    ln -s "$top/build/wol" "$at/wol"
    [ "$shown" = "$(cd "$at" && PATH=$at:$PATH && eval "$line" 2>/dev/null)" ] || echo "docs/USAGE.md shows another reply of: $line"
    # over TCP, at another port
    line=$(tr '\n' ' ' <docs/USAGE.md | grep -o 'socat *-T 600 TCP-LISTEN:[^`]*')
    port=$((20000 + RANDOM % 10000))
    (cd "$at" && PATH=$at:$PATH && eval "exec ${line/:10809/:$port}" 2>/dev/null) &
    front=$!
    shown=
    for _ in {1..100}; do
        shown=$(nbdinfo --size "nbd://127.0.0.1:$port" 2>/dev/null) && break
        sleep 0.1
    done
    [ "$shown" = 1048576 ] || echo "docs/USAGE.md, as it was run, fails: $line"
    kill "$front"
    wait "$front" || true
}

# what `make install` puts down: the documents keep their folders, so that no link is dead, and `make uninstall` takes all of it away
check_installed() {
    local document link
    command -v make >/dev/null || { echo "tests/documents.sh: no make, so make install wasn't tried" >&2; return 0; }
    make -s install PREFIX="$folder/installed" >/dev/null || echo "make install fails"
    while read -r document; do
        sed -n 's/[^]]*](\([^):#]*\)[^)]*)/\1\n/gp' "$document" | sed -n '/^[A-Za-z0-9_.@/-]\{1,\}$/p' | while read -r link; do
            [ -e "$(dirname "$document")/$link" ] || echo "installed, ${document#"$folder"/installed/} has a dead link: $link"
        done
    done < <(find "$folder/installed" -name '*.md')
    make -s uninstall PREFIX="$folder/installed" >/dev/null || echo "make uninstall fails"
    find "$folder/installed" -type f | sed 's/^/make uninstall leaves /'
}

# print_example FOLDER LINE: what the program prints on a line as `wol replay <samples/offload.csv`
print_example() (
    input=/dev/null
    read -ra words <<<"${2%%<*}"
    case $2 in *'<'*) input=${2##*<} ;; esac
    cd "$1"
    "$top/build/wol" "${words[@]:1}" <"$input" 2>/dev/null || true
)

# each example of docs/USAGE.md, one after the other in one folder, and those of README.md
check_outputs() {
    local joules line printed shown total
    mkdir "$folder/plain"
    cp -r samples samples/wol.toml "$folder"
    sed 's/^view = .*/view = []/' samples/wol.toml >"$folder/plain/wol.toml"
    while read -r line; do
        shown=$(awk -v line="    \$ $line" '$0 == line { inside = 1; next } inside && !/^    / { exit } inside { print substr($0, 5) }' docs/USAGE.md)
        printed=$(print_example "$folder" "$line")
        [ "$shown" = "$printed" ] || echo "docs/USAGE.md shows another output of: $line"
        case $line in 'wol replay <samples/offload.csv')
            shown=$(sed -n '/^    lines/,/^    total/s/^    //p' README.md)
            [ "$shown" = "$printed" ] || echo "README.md shows another output of: $line"
            ;;
        esac
    done < <(sed -n 's/^    \$ \(wol [^|]*\)$/\1/p' docs/USAGE.md)
    print_example "$folder/plain" "wol format" >/dev/null
    total=$(print_example "$folder/plain" "wol replay <$top/samples/offload.csv" | tail -n 1)
    joules=$(cut -d ' ' -f 7 <<<"$total" | sed 's/...$//; s/\(...\)$/,\1/')
    grep -q "$(cut -d ' ' -f 3 <<<"$total") spin-ups and takes $joules J" README.md \
        || echo "README.md has other figures without off-loading: $total"
}

{
    check_sizes
    check_files
    check_commands
    check_crates
    check_versions
    check_clauses
    if [ -x build/wol ]; then
        check_outputs
        check_session
        check_installed
    else
        echo "tests/documents.sh: no build/wol, so outputs weren't compared" >&2
    fi
} >"$folder/complaints"
sed 's/^/tests\/documents.sh: /' "$folder/complaints"
[ ! -s "$folder/complaints" ]
