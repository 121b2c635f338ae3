#!/bin/sh
# Writes the grammars for editors from the words of docs/LANGUAGE.md: editors.sh [FOLDER], by default editors/ of the checkout.
# A case compares them with those that are there.
top=$(CDPATH='' cd -- "$(dirname -- "$0")/.." && pwd) || exit 1
folder=${1:-$top/editors}
parts=$top/scripts/explain
mkdir -p "$folder/vscode/syntaxes" "$folder/vim/syntax" "$folder/vim/ftdetect" || exit 1

# The reserved words of a group, parted by a mark: functions, operators and constants by their productions, clauses and
# the rest as keywords.
words() {
    LC_ALL=C awk -v kind="$1" -v mark="$2" -f "$parts/text.awk" -f "$parts/grammar.awk" -f "$top/scripts/explain/words.awk" -- "$top/docs/LANGUAGE.md"
}

cat >"$folder/vscode/package.json" <<'END'
{
  "name": "vtl",
  "displayName": "VTL 2.0",
  "description": "Colours for scripts in VTL 2.0, the Validation and Transformation Language of SDMX",
  "version": "1.0.0",
  "publisher": "vtl",
  "engines": { "vscode": "^1.60.0" },
  "contributes": {
    "languages": [{ "id": "vtl", "aliases": ["VTL"], "extensions": [".vtl"], "configuration": "./language-configuration.json" }],
    "grammars": [{ "language": "vtl", "scopeName": "source.vtl", "path": "./syntaxes/vtl.tmLanguage.json" }]
  }
}
END
cat >"$folder/vscode/language-configuration.json" <<'END'
{
  "comments": { "lineComment": "//", "blockComment": ["/*", "*/"] },
  "brackets": [["(", ")"], ["[", "]"], ["{", "}"]],
  "autoClosingPairs": [["(", ")"], ["[", "]"], ["{", "}"], ["\"", "\""], ["'", "'"]]
}
END
cat >"$folder/vscode/syntaxes/vtl.tmLanguage.json" <<END
{
  "scopeName": "source.vtl",
  "patterns": [
    { "name": "comment.line.double-slash.vtl", "match": "//.*\$" },
    { "name": "comment.block.vtl", "begin": "/\\\\*", "end": "\\\\*/" },
    { "name": "string.quoted.double.vtl", "begin": "\"", "end": "\"(?!\")", "patterns": [{ "match": "\"\"" }] },
    { "name": "variable.other.quoted.vtl", "match": "'[^']{1,64}'" },
    { "name": "constant.numeric.vtl", "match": "\\\\b[0-9]+(\\\\.[0-9]+)?\\\\b" },
    { "name": "constant.language.vtl", "match": "\\\\b($(words constant '|'))\\\\b" },
    { "name": "support.function.vtl", "match": "\\\\b($(words function '|'))\\\\b(?= *\\\\()" },
    { "name": "keyword.operator.vtl", "match": ":=|<-|<>|<=|>=|\\\\|\\\\||[-+*/<>=#]|\\\\b($(words operator '|'))\\\\b" },
    { "name": "keyword.control.vtl", "match": "\\\\b($(words keyword '|'))\\\\b" }
  ]
}
END
echo 'autocmd BufRead,BufNewFile *.vtl setfiletype vtl' >"$folder/vim/ftdetect/vtl.vim"
cat >"$folder/vim/syntax/vtl.vim" <<END
" Colours for scripts in VTL 2.0.
if exists('b:current_syntax')
  finish
endif
syntax case match
syntax iskeyword @,48-57,_,.
syntax keyword vtlConstant $(words constant ' ')
syntax keyword vtlFunction $(words function ' ')
syntax keyword vtlOperator $(words operator ' ')
syntax keyword vtlKeyword $(words keyword ' ')
syntax match vtlNumber /\\<[0-9]\\+\\(\\.[0-9]\\+\\)\\?\\>/
syntax match vtlSign /:=\\|<-\\|<>\\|<=\\|>=\\|||\\|[-+*<>=#]/
syntax region vtlString start=/"/ skip=/""/ end=/"/
syntax match vtlQuoted /'[^']\\{1,64}'/
syntax match vtlComment /\\/\\/.*/
syntax region vtlComment start=/\\/\\*/ end=/\\*\\//
highlight default link vtlConstant Constant
highlight default link vtlFunction Function
highlight default link vtlOperator Operator
highlight default link vtlKeyword Statement
highlight default link vtlNumber Number
highlight default link vtlSign Operator
highlight default link vtlString String
highlight default link vtlQuoted Identifier
highlight default link vtlComment Comment
let b:current_syntax = 'vtl'
END
