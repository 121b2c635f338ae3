#!/bin/sh
# Prints the man page of `vtl`, from what `vtl --help` says.
top=$(CDPATH='' cd -- "$(dirname -- "$0")/.." && pwd) || exit 1
"$top/vtl" --help | awk '
    function escaped(text) {
        gsub(/\\/, "\\e", text)
        gsub(/-/, "\\-", text)
        return text
    }
    BEGIN {
        print ".TH VTL 1"
        print ".SH NAME"
        print "vtl \\- run scripts in VTL 2.0 over CSV files, and as SQL"
        print ".SH COMMANDS"
    }
    /^--scale/ { print ".SH OPTIONS" }
    /Exit codes:$/ { print ".PP" }
    /^Documents/ { print ".SH DOCUMENTS" }
    /^vtl / { print ".TP\n.B " escaped($0); next }
    /^--/ { print ".TP\n.B " escaped($1 " " $2); sub(/^[^ ]+ [^ ]+ +/, ""); print escaped($0); next }
    /^ *[0-9]+ / { print ".TP\n.B " $1; sub(/^ *[0-9]+ +/, ""); print escaped($0); next }
    NF { sub(/^ +/, ""); print escaped($0) }'
