#!/usr/bin/env bash
# Prints the crates that are checked again with the one that is named: those that stand on it by crates.txt, directly or not, in the order
# of that file. Run from anywhere.
set -eu
cd "$(dirname "$(readlink -f "$0")")/.."
awk -v edited="${1:?usage: above.sh CRATE}" '
    { sub(/#.*/, "") }
    # of the words before the colon, the first is the name
    /:/ { split($0, side, ":"); split(side[1], word, " "); name[++last] = word[1]; under[word[1]] = " " side[2] " " }
    END {
        if (!(edited in under)) { print "above.sh: crates.txt has no crate " edited >"/dev/stderr"; exit 2 }
        again[edited] = 1
        # crates.txt may name a crate before one that it stands on, so it is gone through until nothing is added
        do {
            more = 0
            for (i = 1; i <= last; i++) {
                if (name[i] in again) continue
                for (crate in again) if (index(under[name[i]], " " crate " ")) { again[name[i]] = 1; more = 1; break }
            }
        } while (more)
        for (i = 1; i <= last; i++) if (name[i] in again && name[i] != edited) print name[i]
    }' crates.txt
