#!/bin/sh
# Builds the programs and installs them with their manual pages and guides, or removes them again.
# Usage: ./install.sh PREFIX            into PREFIX/bin and PREFIX/share: manual pages, guides, examples, completion
#        ./install.sh --remove PREFIX
#        ./install.sh --help
# It wants the kit (rt on the PATH): each program is proved before it is built.
set -e
top=$(cd "$(dirname "$0")" && pwd)
programs="jeldroft pict pictcheck pictacts pictseq"
remove=no
usage() { sed -n '2,6s/^# //p' "$0"; }
if [ "$1" = --help ]; then usage; exit 0; fi
if [ "$1" = --remove ]; then remove=yes; shift; fi
if [ $# -ne 1 ] || [ -z "$1" ]; then usage >&2; exit 2; fi
prefix=$1
bin=$prefix/bin
man=$prefix/share/man/man1
doc=$prefix/share/doc/jeldroft
completions=$prefix/share/bash-completion/completions
zsh=$prefix/share/zsh/site-functions
fish=$prefix/share/fish/vendor_completions.d
if [ $remove = yes ]; then
    for program in $programs; do rm -f "$bin/$program" "$man/$program.1" "$completions/$program"; done
    rm -f "$zsh/_jeldroft" "$fish/jeldroft.fish"
    rm -rf "$doc"
    exit 0
fi
mkdir -p "$bin" "$man" "$doc/docs" "$completions" "$zsh" "$fish"
log=$(mktemp)
trap 'rm -f "$log"' EXIT
for program in $programs; do
    echo "proving and building $program; from nothing the first takes an hour or two"
    # rt run builds a program and runs it once: without words, which it answers with its usage, or refuses
    (cd "$top/crates/$program" && rt run > "$log" 2>&1) || true
    if ! grep -q -e "^error: word 1 is not understood$" -e "^Usage: jeldroft" "$log"; then
        tail -n 20 "$log" >&2
        echo "install.sh: $program could not be built: (cd crates/$program && rt run) shows the whole" >&2
        exit 1
    fi
    install -m 755 "$top/crates/$program/out/$program" "$bin/$program"
    install -m 644 "$top/man/$program.1" "$man/$program.1"
    completion=$top/completions/$program.bash
    [ -f "$completion" ] || completion=$top/completions/pict.bash
    install -m 644 "$completion" "$completions/$program"
done
install -m 644 "$top/completions/jeldroft.zsh" "$zsh/_jeldroft"
install -m 644 "$top/completions/jeldroft.fish" "$fish/jeldroft.fish"
# the pages name each other, and the examples, by their places in the repository
install -m 644 "$top/README.md" "$doc/"
install -m 644 "$top"/docs/* "$doc/docs/"
cp -R "$top/examples" "$doc/"
echo "installed: put $bin on the PATH"
