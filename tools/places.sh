#!/bin/sh
# Counts, in a commit's sources, the places where a form of the older language may stand; -l lists them.
# tools/places.sh [-l] COMMIT
set -eu
list=no
[ "${1:-}" = -l ] && { list=yes; shift; }
commit=${1:?tools/places.sh [-l] COMMIT}

# find POINT WHAT PATTERN
find() {
    places=$(git grep -nE "$3" "$commit" -- 'crates/*/src/*.rt' | sed "s/^$commit:crates.//" || true)
    count=$(printf '%s' "$places" | grep -c . || true)
    printf '%s  %4d  %s\n' "$1" "$count" "$2"
    [ $list = no ] || [ "$count" = 0 ] || printf '%s\n' "$places" | sed 's/^/            /'
}

find 1a 'variants of the shape of None, Ok or Err' '^ +(Nothing|Empty|Misused|Done|End|Bad\(.*|OpenQuote),$'
find 1b 'fields that are a bool' '^ +(pub )?[a-z_]+: bool,$'
find 1c 'numbers that name a kind' '^const (OPEN|OR|AND|COMPARISON|SUM|PRODUCT|NO_TYPE): u|=> \(?[0-9]+(, [0-9a-z.]+\))?,$|^ +[0-9]+ => [A-Z]'
find 1d 'results that say nothing' 'fn [a-z_]+\(\) -> u8$'
find 2  'functions of one name and shape' 'fn (try_next|next|line|check_[a-z_]+|push_(value|type|quote|byte|part)|pop_[a-z]+|hex_digit|prints|quote|message|[a-z]+_length|[a-z]+_len|names|sort_keys|lone_[a-z]+|min|max|least|largest|sum|execute(_all)?|type_(one|all)|from_bytes|key(s_of|_words)?|whole_rows)[<(]'
find 3a 'while loops over an index' '^ *while .*[<>]'
find 3b 'for loops over numbers' 'for [a-z_]+ in [0-9a-z_]+\.\.'
find 3c 'counting by hand' '[+-]= (1|len);'
find 3d 'loops with an index beside the item' '\.enumerate\(\)'
find 3e 'loops over the items of a list' '^ *for .* in .*(\.iter\(\)|[a-z]) \{$'
find 4a 'comparison by hand' 'fn (equals|is_less|same|same_bytes)[<(]'
find 4b 'conversion by hand' 'fn (pack[a-z_]*|unpack[a-z_]*|to_cell|from_(cell|stored|bytes|token|arguments)|of_bool|value|truth|number_of|word_of|operation_of|[a-z]+_operator|[a-z_]+_named|sign|token|level)[<(]'
find 4c 'printing by hand' 'fn (words|spelling|expected_words|phrase|message|said|refused|broken|cannot_read|quote|push_[a-z]+)[<(]'
find 5a 'clauses on the room of lent words' 'length [a-z.]+words\.(now|old)'
find 5b 'clauses that a line stays' 'line \{ [a-z.]+line\.now ≡ [a-z.]+line\.now \}'
find 5c 'parameters: a text beside the places in it' 'text: &\[u8\]'
find 6a 'a length beside its buffer' '(depth|count): usize,$|\[Part(<.a>)?; [0-9]\]'
find 6b 'two ends in place of a slice' '(start|end): usize,$|: Span'
find 6c 'lists sorted and walked, lists beside lists' 'keys\.sort\(\)|numbers\[|firsts\['
find 7  'a match on what to do' 'match (action|step|aggregation|instruction|verb|item|turn|mark|self\.state|part)( |\.)'
