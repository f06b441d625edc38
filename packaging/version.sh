# The version of the program and the date of its entry in CHANGELOG.md; scripts/install and scripts/package read this with
# `source`, with top set to the repository. Sets version and released (YYYY-MM-DD).
# shellcheck shell=bash disable=SC2034,SC2154
version=$(sed -n 's/^pub(crate) const VERSION: &str = "\(.*\)";$/\1/p' "$top/crates/fw_arguments/src/command_line.rt")
released=$(sed -n "s/^## $version (\(.*\))$/\1/p" "$top/CHANGELOG.md")
if [ -z "$version" ] || [ -z "$released" ]; then
    echo "CHANGELOG.md has no entry for the version '$version' of crates/fw_arguments/src/command_line.rt" >&2
    exit 1
fi
