#!/bin/sh
# Writes the man page of the command to standard output, from its help texts:
#
#     host/man.sh path/to/sagepliers
#
# Each subcommand's help becomes a section of the one page. Needs help2man (HELP2MAN). The date is that of the version, so equal help gives equal pages.
set -eu
command=$1
help2man=${HELP2MAN:-help2man}
command -v "$help2man" >/dev/null || { echo "man.sh: $help2man is missing: install the package help2man" >&2; exit 1; }
work=$(mktemp -d)
trap 'rm -rf "$work"' EXIT

# The width of argp's lines does not depend on the terminal of whoever calls this.
ARGP_HELP_FMT=rmargin=100
SOURCE_DATE_EPOCH=1794700800
export ARGP_HELP_FMT SOURCE_DATE_EPOCH
LC_ALL=C
export LC_ALL

for name in solve kernel compose check push name show; do
    printf '[SAGEPLIERS %s]\n' "$(echo "$name" | tr '[:lower:]' '[:upper:]')"
    # A literal block: help is laid out already. A backslash or a dot in front would be an order to roff.
    printf '.nf\n'
    "$command" "$name" --help | sed -e 's/\\/\\e/g' -e "s/^\([.']\)/\\\\\&\1/" -e 's/-/\\-/g'
    printf '.fi\n\n'
done >"$work/sections"
"$help2man" --no-info --name='normalized isogenies of odd degree over prime fields' --include="$work/sections" "$command"
