#!/bin/bash
# Fetches the source of the Hercules that is installed, and configures it, for its headers.
#
#     fetch.sh [FOLDER [TARBALL]]
#
# FOLDER is where the source goes, out/hercules/source at the top if left out. The tarball comes
# from where apt takes packages from, also if apt isn't set up for sources, unless TARBALL names it.
set -euo pipefail
to=$(realpath -m "${1:-$(dirname "$0")/../out/hercules/source}")
room=$(mktemp -d)
trap 'rm -rf "$room"' EXIT

fetch() {
    mkdir "$room/lists"
    # shellcheck disable=SC2016
    apt-get indextargets --format 'deb-src $(REPO_URI) $(RELEASE) $(COMPONENT)' \
        'Created-By: Packages' | sort -u > "$room/sources.list"
    local from=(-o "Dir::Etc::SourceList=$room/sources.list" -o Dir::Etc::SourceParts=-
        -o "Dir::State::Lists=$room/lists" -o APT::Sandbox::User=)
    apt-get -qq "${from[@]}" update
    local version
    # shellcheck disable=SC2016
    version=$(dpkg-query -W -f '=${source:Version}' hercules 2> /dev/null || true)
    (cd "$room" && apt-get -qq "${from[@]}" source --download-only --tar-only "hercules$version")
}

[ $# -ge 2 ] || fetch
rm -rf "$to" && mkdir -p "$to"
tar xzf "${2:-$(echo "$room"/hercules_*.orig.tar.gz)}" -C "$to" --strip-components=1
cd "$to"
# Hercules has no C++, but its configure looks for a preprocessor of it
CXXCPP="${CXXCPP:-gcc -E -x c}" ./configure > "$room/log" 2>&1 || { tail "$room/log" >&2; exit 1; }
echo "the headers of Hercules are in $to"
