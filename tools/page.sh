#!/bin/sh
# Prints the man page with the version that VERSION has, for a program of this name.
# usage: page.sh [NAME]
set -eu
cd "$(dirname "$0")/.."
name=${1:-par2}
version=$(cat VERSION)
capitals=$(echo "$name" | tr '[:lower:]' '[:upper:]')
# The program's name is the word par2 where nothing joins it, as in \fBpar2 create; .par2, par2cmdline and PAR2 are others.
sed -e "s/^\\.TH PAR2 1 \\([^ ]*\\) \"par2 [^\"]*\"/.TH $capitals 1 \\1 \"$name $version\"/" \
    -e "s/\\(^\\|[^-.A-Za-z0-9*>\"+]\\)par2\\(\$\\|[^-.A-Za-z0-9]\\)/\\1$name\\2/g" \
    -e "s/\\\\fBpar2 /\\\\fB$name /g" docs/par2.1
