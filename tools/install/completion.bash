# The words of octomap in bash, those of its help filled in by install.sh.

_octomap() {
    local word=${COMP_WORDS[COMP_CWORD]} task=${COMP_WORDS[1]} words=
    case $COMP_CWORD:$task in
    1:*)
        words='@WORDS@'
        # (words of the launcher, in the folder of the sources)
        [ ! -f "${COMP_WORDS[0]%/*}/crates.txt" ] || words+=' --unproved install release'
        ;;
    [3579]:session | [3579]:build | 1[13579]:session | 1[13579]:build)
        words='@OPTIONS@'
        ;;
    2:convert | 2:inspect | 2:vrml | 8:frontier | 8:project) words=--max-bytes ;;
    2:merge) words='greatest least first' ;;
    [34]:merge | [23]:table)
        mapfile -t COMPREPLY < <(compgen -f -- "$word")
        return
        ;;
    esac
    mapfile -t COMPREPLY < <(compgen -W "$words" -- "$word")
}

complete -F _octomap octomap octomap-unproved
