# What newer, sources and counting share; they read it with `source`.
# shellcheck shell=bash

# trixie KIND: goes to a folder that is removed at the end, and sets options, with which apt-get fetches and checks packages (deb) or
# sources (deb-src) of Debian 13, from lists of its own. Nothing is installed.
trixie() {
    work=$(mktemp -d)
    trap 'rm -rf "$work"' EXIT
    cd "$work" || return 1
    mkdir -p lists/partial cache/archives/partial
    echo "$1 [signed-by=/usr/share/keyrings/debian-archive-keyring.gpg] http://deb.debian.org/debian trixie main" >trixie.list
    options=(-o "Dir::Etc::sourcelist=$work/trixie.list" -o Dir::Etc::sourceparts=/dev/null -o "Dir::State::lists=$work/lists"
        -o "Dir::Cache=$work/cache" -o Acquire::Languages=none -o Acquire::http::Timeout=30 -o APT::Sandbox::User=root)
    apt-get "${options[@]}" update
}

# unpack_source FOLDER [PATTERN ..]: the source of U-Boot 2025.01, or what fits a pattern of it, below FOLDER.
unpack_source() {
    apt-get "${options[@]}" source --download-only --tar-only u-boot
    mkdir -p "$1"
    tar --extract --file u-boot_*.orig.tar.* --directory "$1" --strip-components 1 --wildcards "${@:2}"
}
