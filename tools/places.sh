#!/bin/sh
# How many lines of the code at a commit (HEAD if none is named) each pattern finds; with -l the lines themselves.
# docs/DESIGN-PASS.md says what was looked for with each.
#   tools/places.sh [-l] [COMMIT]
set -eu
list=no
if [ "${1:-}" = -l ]; then list=yes; shift; fi
commit=${1:-HEAD}

find_all() {
    name=$1; pattern=$2; drop=${3:-^$}
    found=$(git grep -nE -e "$pattern" "$commit" -- 'crates/*/src/*.rt' | grep -vE "$drop" || true)
    count=$(printf '%s' "$found" | grep -c . || true)
    printf '%5s  %s\n' "$count" "$name"
    if [ "$list" = yes ] && [ -n "$found" ]; then printf '%s\n' "$found" | sed "s/^$commit:/       /"; fi
}

find_all '1 enums'                              '^ *pub(\(crate\))? enum|^enum'
find_all '1 a Result or Option in a Result'     'Result<Result<|Option<Option<|Option<Result<'
find_all '1 bool of a function that writes'     'fn .*&mut .*-> (io::Result<)?bool'
find_all '1 numbers for kinds and refusals'     '\b(number|kind|table|last_kind|direction|verb|content|operand_kind): u(32|64)'
find_all '1 kinds compared as numbers'          '\b(kind|direction|content|verb|operand_kind|pattern|filled) (==|!=|<=) ?[0-9]' 'crates/zeros'
find_all '1 a match on a number of a kind'      'match (kind|row\.(kind|verb|operand_kind)|table|code)\b'
find_all '3 loops over a range'                 'for [a-z_]+ in \(?[a-z0-9_.]+\.\.'
find_all '3 while and loop'                     '^\s*(while|loop)\b'
find_all '3 a place counted on'                 '(place|start|i|at|k|line) \+= |start = i \+ 1'
find_all '4 conversions and tests by hand'      'fn (is_zero|code|kind_of|decode|number|narrow|reason|within|edges_in)\b'
find_all '4 texts by hand'                      'fn [a-z_]*(_text|_head|head)\b|fn listed_line|fn push_(fields|slots)|fn (row|running|shelf|shelved|table)_line\b'
find_all '4 the smaller of two by hand'         'if .* \{ [a-z_.]+ \} else \{ [a-z_.0-9]+ \}'
find_all '4 an Option or Result put together again' 'Some\([a-z_]+\) => (Some|Ok\(Some|[a-z_]+\()|None => (None|false|Ok\(None)|Err\([a-z]+\) => Err'
find_all '5 Holds in a clause'                  'Holds tables'
find_all '5 words and place together'           'words: &\[&\[u8\]\],( place)?$|words: &\[&\[u8\]\], place'
find_all '5 a stretch and its place together'   'stretch, (at|0)\)|stretch: &\[u8\], at'
find_all '5 the numbers of a poke together'     'row: u32,? *field: u32|field: u32,? *value: u64'
find_all '6 arrays'                             '\[[A-Za-z]+; [A-Z0-9]+\]'
find_all '7 ladders'                            'else if spells|if let Some\((row|place)\)'
