#!/usr/bin/env bash
# Sees that a release's page names no path that the release lacks: each word in backquotes that has a `/`, but what
# cargo makes in `target`.
#
#   .ci/page_paths.sh PAGE FOLDER ..   of which a path may be in any
# (backquotes are those of the page)
# shellcheck disable=SC2016
set -eu
status=0
prose=$(sed '/^```/,/^```$/d' "$1")
while read -r path; do
    for folder in "${@:2}"; do [ ! -e "$folder/$path" ] || continue 2; done
    echo "$1 names $path, which the release lacks"
    status=1
done < <(grep -oP '`(?!target/)\K[\w.-]+/[\w./-]*(?=`)' <<<"$prose" | sort -u)
exit $status
