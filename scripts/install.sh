#!/bin/sh
# Copies the program with its launcher, explanations and pages to PREFIX/share/vtl, and puts PREFIX/bin/vtl before them:
# install.sh PREFIX. What is installed needs neither the checkout, nor git, nor the kit, and builds nothing.
top=$(CDPATH='' cd -- "$(dirname -- "$0")/.." && pwd) || exit 1
prefix=${1:?install.sh PREFIX}
program=$top/crates/vtl/out/vtl
if [ ! -x "$program" ]; then
    echo 'install.sh: there is no proved program; scripts/build.sh builds it' >&2
    exit 1
fi
share=$prefix/share/vtl
mkdir -p "$prefix/bin" "$share.new" || exit 1
(
    cd "$top" && cp -R vtl README.md docs examples "$share.new/" && mkdir -p "$share.new/scripts" "$prefix/share/man/man1" &&
        cp -R scripts/explain scripts/explain.sh scripts/notices.sh scripts/lint.sh scripts/infer.sh scripts/run-whole.sh scripts/from scripts/completion.bash "$share.new/scripts/" &&
        cp "$program" "$share.new/program" && scripts/man.sh >"$prefix/share/man/man1/vtl.1"
) || exit 1
cat "$top/crates/vtl/out/kit" >"$share.new/kit" 2>/dev/null || echo proved >"$share.new/kit"
git -C "$top" rev-parse --short=12 HEAD >"$share.new/revision" 2>/dev/null || echo unknown >"$share.new/revision"
rm -rf "$share" && mv "$share.new" "$share" && ln -sf ../share/vtl/vtl "$prefix/bin/vtl" || exit 1
echo "$prefix/bin/vtl"
