#compdef octomap octomap-unproved
# The words of octomap in zsh, those of its help filled in by install.sh.

local -a tasks options
tasks=(
@TASKS@
)
options=(@OPTIONS@)

if ((CURRENT == 2)); then
    # (words of the launcher, in the folder of the sources)
    [[ -f ${words[1]:h}/crates.txt ]] && compadd -- --unproved install release
    _describe task tasks
    return
fi
case $words[2] in
session | build) ((CURRENT > 3 && CURRENT % 2 == 0)) && compadd -- $options ;;
convert | inspect | vrml) ((CURRENT == 3)) && compadd -- --max-bytes ;;
frontier | project) ((CURRENT == 9)) && compadd -- --max-bytes ;;
merge)
    if ((CURRENT == 3)); then
        compadd -- greatest least first
    elif ((CURRENT < 6)); then
        _files
    fi
    ;;
table) ((CURRENT < 5)) && _files ;;
esac
