#!/bin/sh
# Sees that what docs/MAP.md names exists, that each must-fail edit, each law and each call of the C header stands in it, and that each export for C
# promises what its namesake in the library does. Every name in the map is in backquotes, in one of these forms:
#   crate/File.name, crate/File.record.field   a public definition in crates/crate/specs/File.antt; a law must be shown in crates/crate/proofs
#   crate::function, crate::module::function   a function in crates/crate/src/lib.rt, or in module.rt there
#   Kind::CONSTANT, Kind::function             a constant or a function in the kind's own impl
#   crate::Kind::function                      the same in crates/crate alone
#   crate::Kind                                a type of crates/crate
#   edit crate/label                           a must-fail edit
#   case words                                 a line of crates/cases/stdout, up to a comma or a colon; one word: a kind of line
#   a/path                                     a file or folder
# In the other papers a name with :: and a file with its folder must exist; files also below crates/, and a module stands for itself.
set -u
cd "$(dirname "$0")/.." || exit 1
map=docs/MAP.md
papers='README.md docs/RULES.md docs/DECISIONS.md docs/EXCEPTIONS.md docs/TRUST.md'
bad=0 seen=0
wrong() { bad=$((bad + 1)); echo "check-map: $1" >&2; }
tokens() { grep -oh '`[^`]*`' "$@" | tr -d '`' | sort -u; }

# A law is a statement by itself, so its whole type is Type 0.
laws() { sed -n 's/^abbrev pub \([A-Z][A-Za-z]*\) : Type 0$/\1/p' "$@"; }

definition() { # CRATE FILE NAME
    file=crates/$1/specs/$2.antt
    [ -f "$file" ] && grep -qE "^(abbrev |unfoldable )?pub (record |data )?$3( |\$)" "$file" || return 1
    ! laws "$file" | grep -qx "$3" || grep -rqE "^pub [^ ]+ : $3\$" "crates/$1/proofs"
}

field() { # CRATE FILE RECORD FIELD
    awk -v record="$3" -v field="$4" '/^[^ ]/ { inside = $1 == "pub" && $2 == "record" && $3 == record }
        inside && $1 == "pub" && $2 == field { found = 1 }
        END { exit !found }' "crates/$1/specs/$2.antt" 2>/dev/null
}

function() { # CRATE[::MODULE] NAME
    case $1 in *::*) file=crates/${1%%::*}/src/${1#*::}.rt ;; *) file=crates/$1/src/lib.rt ;; esac
    [ -f "$file" ] && grep -qE "^(pub )?(extern \"C\" )?fn $2[(<]" "$file"
}

# A call's parameters, result and clauses, without what makes it an export.
promise() { # CRATE NAME
    sed -n "/^pub .*fn $2(/,/^{/p" "crates/$1/src/lib.rt" | sed 's/^pub extern "C" fn /pub fn /'
}

of_kind() { # KIND NAME [CRATE]
    awk -v kind="$1" -v name="$2" '/^[^ ]/ { sub(/^impl<[^>]*> /, "impl "); sub(/<.*/, "", $2); inside = $1 == "impl" && $2 == kind }
        inside && $0 ~ "(const|fn) " name "[:(<]" { found = 1 }
        END { exit !found }' crates/${3:-*}/src/*.rt
}

case_line() { # WORDS
    awk -v words="$1" 'index($0, words) == 1 { next_one = substr($0, length(words) + 1, 1) }
        next_one == "," || next_one == ":" || (next_one == " " && words !~ / /) { found = 1 }
        END { exit !found }' crates/cases/stdout
}

known() { # TOKEN
    case $1 in
    'edit '*) name=${1#edit }; [ -f "crates/${name%%/*}/must-fail/${name#*/}.edit" ] ;;
    'case '*) case_line "${1#case }" ;;
    [a-z]*::[A-Z]*::*) name=${1#*::}; of_kind "${name%%::*}" "${name##*::}" "${1%%::*}" ;;
    [a-z]*::[A-Z]*) grep -qE "^pub (struct|enum|trait) ${1##*::}\\b" crates/"${1%%::*}"/src/*.rt ;;
    [a-z]*::*) function "${1%::*}" "${1##*::}" ;;
    [A-Z]*::*) of_kind "${1%%::*}" "${1##*::}" ;;
    [a-z]*/[A-Z]*.*.*) [ -e "$1" ] || { name=${1#*/}; rest=${name#*.}; field "${1%%/*}" "${name%%.*}" "${rest%%.*}" "${rest#*.}"; } ;;
    [a-z]*/[A-Z]*.*) [ -e "$1" ] || { name=${1#*/}; definition "${1%%/*}" "${name%%.*}" "${name#*.}"; } ;;
    *) [ -e "$1" ] ;;
    esac
}

while IFS= read -r token; do
    seen=$((seen + 1))
    known "$token" || wrong "$map names what isn't there, or isn't shown: $token"
done <<END
$(tokens "$map")
END
# shellcheck disable=SC2086
while IFS= read -r token; do
    case $token in
    *[\ \*]*) continue ;;
    [a-z]*::*) known "$token" || [ -f "crates/${token%%::*}/src/${token#*::}.rt" ] ;;
    [A-Z]*::*) known "$token" ;;
    */*.antt | */*.rt | */*.md | */*.c | */*.h | */*.sh | */*.txt | */*.csv) [ -f "$token" ] || [ -f "crates/$token" ] ;;
    *) continue ;;
    esac || wrong "a paper names what isn't there: $token"
    seen=$((seen + 1))
done <<END
$(tokens $papers)
END

for edit in crates/*/must-fail/*.edit; do
    crate=${edit#crates/}
    grep -qF "\`edit ${crate%%/*}/$(basename "$edit" .edit)\`" "$map" || wrong "$map has no row for $edit"
done
for file in crates/*/specs/*.antt; do
    crate=${file#crates/}
    for law in $(laws "$file"); do
        name=${crate%%/*}/$(basename "$file" .antt).$law
        [ "$name" = rules/Sums.Subset ] && continue # a type, and no statement
        grep -qF "\`$name\`" "$map" || wrong "$map has no row for the law $name"
    done
done
for call in $(grep -ohE 'extern "C" fn [a-z_]+' crates/fiddlequill_c/src/lib.rt | sed 's/.* //'); do
    [ -n "$(promise fiddlequill "$call")" ] && [ "$(promise fiddlequill "$call")" = "$(promise fiddlequill_c "$call")" ] ||
        wrong "the export $call doesn't promise what the library's call does"
    grep -qF "\`fiddlequill::$call\`" "$map" || wrong "$map has no row for the call $call"
    grep -qE "^uint(32|64)_t $call\\(" include/fiddlequill.h || wrong "the header hasn't the call $call"
done
echo "check-map: $seen names, $bad wrong or missing"
[ "$bad" -eq 0 ]
