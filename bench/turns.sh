# For benches that hold a proved program against a plain one, which read this file.
#
# Each program prints with `time` one line for each case: its name in two words, a time, and a checksum of the results.

# needs_rustc BENCH: ends with a clear line where no rustc knows the edition that the peers are written in.
needs_rustc() {
    command -v rustc >/dev/null || { echo "$1: needs rustc with edition 2024 (1.85 or later); there is none" >&2; exit 2; }
    rustc --edition 2024 --print sysroot >/dev/null 2>&1 ||
        { echo "$1: needs rustc with edition 2024 (1.85 or later); this is $(rustc --version)" >&2; exit 2; }
}

# needs_python BENCH: ends with a clear line where there is no python3.
needs_python() {
    command -v python3 >/dev/null || { echo "$1: needs python3; there is none" >&2; exit 2; }
}

# in_turns PROVED PLAIN [BARS]: runs both in turns, and prints the least time of each for each case and their ratio. Fails where
# results differ, or where a ratio is above its bar: 1.15, or what BARS has for the case, as in 'cmp wide:0.7,mul wide:1.2'.
in_turns() {
    for _ in 1 2 3 4 5 6 7 8 9; do
        "$1" time | sed 's/^/proved /'
        "$2" time | sed 's/^/plain /'
    done | awk -v bars="${3:-}" '
        BEGIN {
            own = split(bars, entries, ",")
            for (i = 1; i <= own; i++) if (split(entries[i], parts, ":") == 2) bar[parts[1]] = parts[2]
        }
        {
            name = $2 " " $3
            if (!(name in seen)) { seen[name] = 1; names[++count] = name }
            if (!(($1, name) in least) || $4 < least[$1, name]) least[$1, name] = $4
            if ((name in check) && check[name] != $5) differs[name] = 1
            check[name] = $5
        }
        END {
            if (!count) bad = 1
            for (i = 1; i <= count; i++) {
                name = names[i]
                if (!(("proved", name) in least) || !(("plain", name) in least) || (name in differs)) {
                    print name ": the results differ"
                    bad = 1
                    continue
                }
                ratio = least["proved", name] / least["plain", name]
                printf "%-12s proved %8.1f ns   plain %8.1f ns   ratio %.2f\n", name, least["proved", name], least["plain", name], ratio
                if (ratio > (name in bar ? bar[name] : 1.15)) bad = 1
            }
            exit bad
        }'
}
