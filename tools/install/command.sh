#!/bin/sh
# The installed command octomap: answers --help and --version, says which word is no task, and runs
# the program for every other. As octomap-unproved it runs the one that isn't proved.

file=$(readlink -f -- "$0") || exit 9
name=$(basename -- "$file")
home=$(dirname -- "$(dirname -- "$file")")/libexec/$name
. "$home/words.sh" || exit 9

case $#:${1-} in
1:--help) help && exit ;;
1:--version) cat -- "$home/version" && exit ;;
esac
expect_task "$@"
case $name in
*-unproved) run_unproved "$home/octomap" "$@" ;;
esac
exec "$home/octomap" "$@"
