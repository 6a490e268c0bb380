# How a program or a library of this repository is built, and what it depends on. A script sets `here`, the root of the
# repository, `crate`, the crate that is built, and `file`, the file that it becomes, and reads this file.

# lines_below NAME: the lines of crates.txt for a crate and all crates that it depends on.
lines_below() {
    awk -v name="$1" '
        { sub(/#.*/, "") }
        split($0, halves, ":") == 2 {
            split(halves[1], words, " ")
            crates[++count] = words[1]
            line[words[1]] = $0
            below[words[1]] = halves[2]
        }
        END {
            todo[last = 1] = name
            while (last > 0) {
                crate = todo[last--]
                if (crate in is_below || !(crate in line)) continue
                is_below[crate] = 1
                number = split(below[crate], words, " ")
                for (i = 1; i <= number; i++) todo[++last] = words[i]
            }
            for (i = 1; i <= count; i++) if (crates[i] in is_below) print line[crates[i]]
        }
    ' "$here/crates.txt"
}

# newer_file FILE: a file of these crates that their proofs depend on and that is newer than FILE, if there is one.
newer_file() {
    local line folders=()
    while read -r line; do
        folders+=("$here/crates/${line%%[ :]*}")
    done <<< "$lines"
    find "${folders[@]}" -name out -prune -o \
        \( -name '*.rt' -o -name '*.antt' \) -newer "$1" -print -quit
}

# progress NAME: which crate is being proved for NAME, and how far it is, from the lines that the toolchain prints.
progress() {
    awk -v name="$1" '
        NR == FNR { sub(/[ :].*/, ""); number[$0] = ++total; next }
        /^rt: chose .* for / { crate = $NF; print name ": proving " crate " (" number[crate] " of " total ")"; fflush() }
        /^so far: [0-9]+ of [0-9]+ functions/ { print name ": " crate ": " $3 " of " $5 " functions"; fflush() }
    ' <(printf '%s\n' "$lines") - >&2
}

lines="$(lines_below "$crate")"
folder="$here/crates/$crate"
# What the file was built from: the lines of crates.txt. This is as old as the beginning of the build.
built_from="$folder/out/built-from"

# is_built: whether the file was built from the crates as they are now.
is_built() {
    [ -f "$file" ] && [ -f "$built_from" ] && [ "$(cat "$built_from")" = "$lines" ] && [ -z "$(newer_file "$built_from")" ]
}

# build NAME COMMAND..: proves and builds the file by this command of the toolchain, and says so for NAME. The file that is
# there stays until the new one is built.
build() (
    name="$1"
    shift
    log="$(mktemp)"
    begun="$built_from.$$"
    trap 'rm -f "$log" "$begun"' EXIT
    mkdir -p "$folder/out"
    printf '%s\n' "$lines" > "$begun"
    cd "$folder"
    if ! "$@" < /dev/null 2>&1 | tee "$log" | progress "$name" || [ ! -f "$file" ]; then
        cat "$log" >&2
        return 1
    fi
    mv "$begun" "$built_from"
)
