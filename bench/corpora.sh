#!/bin/sh
# Makes corpora of real text from Debian's packages.
#
#   corpora.sh OUT [CACHE]
#
# OUT gets a folder of documents for each corpus and size in MiB (manuals-1, manuals-8, manuals-62 and
# multilingual-1, -8, -62), beside it a list of where each document comes from, and two files of one document each
# of nearly 8 MiB: english.txt, which is manuals-8 in one, and multilingual.txt.
#
#   manuals       English: the sources of manual pages, pod, and the texts of linux-doc and of git's, perl's, tcl's
#                 and glibc's manuals
#   multilingual  manual pages in de fr ja ru zh uk el vi pl es cs tr sr, the Debian Reference in ja and zh-cn, and
#                 linux-doc's translations
#
# CACHE, by default OUT/.cache, keeps the packages. The names are those of Debian 12, and a package that isn't there
# is left out. Needs apt-get with fresh lists, dpkg-deb and python3, and installs nothing.
set -eu
here=$(cd "$(dirname "$0")" && pwd)
out=${1:?usage: corpora.sh OUT [CACHE]}
cache=${2:-$out/.cache}
mkdir -p "$out" "$cache/packages" "$cache/files"
out=$(cd "$out" && pwd)
cache=$(cd "$cache" && pwd)

for package in \
    manpages manpages-dev git-man tcl8.6-doc perl-doc glibc-doc linux-doc-6.1 \
    manpages-de manpages-de-dev manpages-fr manpages-fr-dev manpages-ja manpages-ja-dev \
    manpages-ru manpages-ru-dev manpages-zh manpages-uk manpages-uk-dev manpages-el manpages-vi \
    manpages-pl manpages-es manpages-es-dev manpages-cs manpages-tr manpages-sr \
    debian-reference-ja debian-reference-zh-cn
do
    [ -d "$cache/files/$package" ] && continue
    if (cd "$cache/packages" && apt-get -o APT::Sandbox::User=root download "$package" >/dev/null 2>&1); then
        dpkg-deb -x "$cache/packages/$package"_*.deb "$cache/files/$package"
    else
        echo "corpora.sh: no package $package, left out" >&2
    fi
done
python3 "$here/corpora.py" "$cache/files" "$out"
