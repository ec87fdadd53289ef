#!/usr/bin/env bash
# What the documents name is there: files, theorems and definitions; every edit that must fail stands in docs/CONTRACTS.md, every law is used
# or named in docs/; the public calls have contracts, and docs/REVIEW.md's reading list is what these stand on; crates.txt lists what is named.
# The last line is 'N passed, M failed'.
cd "$(dirname "$0")/.." || exit 2
passed=0
failed=0

# seen NAME WHAT: counts
seen() { if [ "$1" = yes ]; then passed=$((passed + 1)); else failed=$((failed + 1)); echo "missing: $2"; fi; }

# counted WHAT COMMAND..: the command's closing line joins the sum; each line before it is a failure
counted() {
  local what=$1 line
  shift
  while read -r line; do
    case $line in
      *' passed, '*' failed') passed=$((passed + ${line%% *})) ;;
      *) seen no "$what $line" ;;
    esac
  done < <("$@")
}

documents="README.md docs/REVIEW.md docs/CONTRACTS.md docs/ARCHITECTURE.md docs/DECISIONS.md"
names=$(mktemp)
trap 'rm -f "$names"' EXIT
# every name that is declared in a definition, a proof, code or the header
{ grep -rhoE '^ *(abbrev |unfoldable )?(pub )?[^ ():]+ :' crates --include='*.antt' --exclude-dir=out | sed -E 's/^ *(abbrev |unfoldable )?(pub )?//; s/ :$//'
  grep -rhoE '(record|data) [A-Z][A-Za-z]*' crates --include='*.antt' --exclude-dir=out | sed 's/.* //'
  grep -rhoE '(fn|struct|enum) [A-Za-z_0-9]+|^    [A-Z][A-Za-z]*[,(]' crates --include='*.rt' --exclude-dir=out | sed 's/.* //; s/[,(]$//'
  grep -oE '\bpitsets_[a-z_]+' include/pitsets.h
  ls crates; } | sort -u > "$names"

# a path: crate/specs/File, crate/proofs/File, crate/src/file.rt, crate/must-fail/edit, docs, tests, tools
while read -r path; do
  base=${path%%[.,;:)]}
  if compgen -G "crates/$base*" >/dev/null || [ -e "$base" ]; then seen yes "$path"; else seen no "$path"; fi
done < <(grep -hoE '\b[a-z_]+/(specs|proofs|src|must-fail)/[A-Za-z_.]+|\b(docs|tests|tools|examples|include|bench)/[A-Za-z_./-]+' $documents | sort -u)

# theorems and definitions: names in code marks that have a hyphen or a dash below, or begin with a capital
while read -r name; do
  if grep -qxF -- "$name" "$names"; then seen yes "$name"; else seen no "$name"; fi
done < <(grep -hoE '`([a-z][a-zA-Z0-9]*([-_][a-z0-9]+)+|[A-Z][A-Za-z]*)`' docs/REVIEW.md docs/CONTRACTS.md | tr -d '`' | sort -u)

# edits that must fail: each has a row, and each row its edit; those of must-fail/ are tried by `.ci/run`, those of tests/edits on demand
for e in crates/*/must-fail/*.edit tests/edits/*/*.edit; do
  sed -E 's#^crates/([a-z_]+)/must-fail/([a-z_0-9]+)\.edit$#\1/\2#; s#^tests/edits/([a-z_]+)/([a-z_0-9]+)\.edit$#\1/\2 (on demand)#' <<<"$e"
done | sort > "$names"
while read -r row; do seen no "the row or the edit of $row"; done < <(
  grep -vE '^\| `[a-z]+::' docs/CONTRACTS.md | grep -oE '[a-z_]+/[a-z_0-9]+( \(on demand\))? \|$' | sed 's/ |$//' | sort | comm -3 - "$names" | sed 's/^\t//')
passed=$((passed + $(wc -l < "$names")))
# so too the two of each public call
while read -r edit; do
  if grep -qxF -- "$edit" "$names"; then seen yes "$edit"; else seen no "the edit of a call $edit"; fi
done < <(grep -E '^\| `[a-z]+::' docs/CONTRACTS.md |
  awk '{ later = 0; n = split($0, w, /[ ,;]+/)
         for (i = 1; i <= n; i++) if (w[i] == "demand") later = 1; else if (w[i] ~ /^[a-z_]+\/[a-z_0-9]+$/) print w[i] (later ? " (on demand)" : "") }')
sed -i 's/ (on demand)$//' "$names"
while read -r edit; do
  if grep -qxF -- "$edit" "$names"; then seen yes "$edit"; else seen no "edit $edit"; fi
done < <(grep -hoE "\b($(ls crates | paste -sd '|'))/[a-z_0-9]+\b" docs/REVIEW.md docs/CONTRACTS.md | grep -vE '/(specs|proofs|src|stdout)$' | sort -u)

# what README shows of the first command's output is examples/shift.out, `..` standing for any lines
shown=$(sed -n '/^    == what pitsets prints$/,/^    end$/s/^    //p' README.md | tail -n +2)
# shellcheck disable=SC2053
if [[ -n $shown && $(cat examples/shift.out) == ${shown//$'\n..\n'/$'\n*\n'} ]]; then seen yes ""; else seen no "README's output in examples/shift.out"; fi

# the reading list and the public calls; every other law and definition is used
counted "" python3 tools/reading.py
counted "use of" python3 tools/unused.py
# command bytes, widths, limits and refusals stand as digits at their homes alone
counted "home:" python3 tools/layout.py
# crates.txt has what the files name
counted "crates.txt:" python3 tools/depends.py
# no definition and no contract stands on a file of proofs/
while read -r line; do seen no "a definition without proofs/: $line"; done < <(
  grep -rnE '^(pub |ghost )*use Rattle\.[a-z_]+\.proofs' crates/*/specs crates/*/src | grep -v 'use Rattle\.std\.')
echo "$passed passed, $failed failed"
[ "$failed" -eq 0 ]
