#!/bin/sh
# Whether definitions and rules belong together. A citation is a bracket of rule numbers in a comment: [W4, F16].
# - The comment right above each public definition of crates/*/specs cites a rule.
# - Each rule that is cited stands in docs/RULES.md, once.
# - Each rule is cited in crates/*/specs or crates/demands/proofs. E, K and L, some of which are run or bind the code
#   alone, may be cited in any crate's code or proofs instead.
# And whether docs/CONTRACTS.md and the must-fail edits do: each edit that its third column names, in brackets, is a
# file crates/*/must-fail/NAME.edit, and each such file is named there.
# Prints what is missing, a line for each, and a count; the exit status is 1 if anything is.
cd "$(dirname "$0")/.." || exit 2
work=$(mktemp -d) || exit 2
trap 'rm -rf "$work"' EXIT
one='[A-Z][0-9]+(\.[0-9]+)?'
bracket="\\[$one(, $one)*\\]"

# the rules, by number
sed -n 's/^\*\*\([A-Z][0-9.]*[0-9]\)\.\{0,1\}\*\* .*/\1/p' docs/RULES.md >"$work/rules"
sort "$work/rules" | uniq -d | sed 's|^|docs/RULES.md: twice: |' >"$work/missing"

# the citations of some files: FILE:LINE NUMBER
cited_in() { # DIRECTORY.., files' names
    find "$@" | sort | xargs grep -nEo -- "(--|//).*$bracket" | awk -v bracket="$bracket" '
        {
            where = $0
            sub(/:(--|\/\/).*/, "", where)
            while (match($0, bracket)) {
                count = split(substr($0, RSTART + 1, RLENGTH - 2), number, ", ")
                for (i = 1; i <= count; i++) print where " " number[i]
                $0 = substr($0, RSTART + RLENGTH)
            }
        }'
}
cited_in crates/*/specs crates/demands/proofs -name '*.antt' >"$work/stated"
cited_in crates -name '*.rt' -o -path '*/proofs/*' -name '*.antt' >"$work/anywhere"

# public definitions, each with the comment lines right above it
find crates/*/specs -name '*.antt' | sort | xargs awk -v bracket="$bracket" '
    FNR == 1 { above = "" }
    /^--/ { above = above $0; next }
    /^(abbrev |unfoldable )?pub / && !/pub (mod|use) / && above !~ bracket {
        sub(/^(abbrev |unfoldable )?pub (record |data )?/, "")
        print FILENAME ":" FNR ": cites no rule: " $1
    }
    { above = "" }' >>"$work/missing"

# what is cited and is no rule, and rules that nothing cites
awk '
    FILENAME ~ /rules$/ { rule[$1]; order[++count] = $1; next }
    !($2 in rule) { print $1 ": no such rule: " $2; next }
    FILENAME ~ /stated$/ || $2 ~ /^[EKL]/ { cited[$2] }
    END { for (i = 1; i <= count; i++) if (!(order[i] in cited)) print "docs/RULES.md: nothing cites " order[i] }' \
    "$work/rules" "$work/stated" "$work/anywhere" | sort -u >>"$work/missing"

# the edits that the contracts name, and the edits there are
awk -F' \\| ' 'NF == 3 { print $3 }' docs/CONTRACTS.md | grep -o '(`[a-z0-9_]*`)' | tr -d '(`)' | sort -u >"$work/named"
ls crates/*/must-fail/*.edit | sed 's|.*/||; s|\.edit$||' | sort -u >"$work/edits"
comm -23 "$work/named" "$work/edits" | sed 's|^|docs/CONTRACTS.md: no such edit: |' >>"$work/missing"
comm -13 "$work/named" "$work/edits" | sed 's|^|docs/CONTRACTS.md: does not name the edit |' >>"$work/missing"

cat "$work/missing"
echo "$(wc -l <"$work/rules") rules, $(wc -l <"$work/missing") missing"
[ ! -s "$work/missing" ]
