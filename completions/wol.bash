# Completion of the commands, options and volumes of wol for bash. Names of volumes are those of wol.toml in the current folder.
_wol() {
    local word=${COMP_WORDS[COMP_CWORD]} before=${COMP_WORDS[COMP_CWORD - 1]} words=""
    if [ "$COMP_CWORD" -eq 1 ]; then
        words="format replay check dump whatif clean serve nbd gen soak view-add view-remove solo --help --version"
        mapfile -t COMPREPLY < <(compgen -W "$words" -- "$word")
        return
    fi
    # bash takes the = of --reclaim=off for a word of its own
    if [ "$word" = "=" ]; then
        word=""
    elif [ "$before" = "=" ]; then
        before=${COMP_WORDS[COMP_CWORD - 2]}
    fi
    case $before in
    --reclaim) words="off between beside" ;;
    --workers) words="1 2 4 8 16 32 64" ;;
    --wait) words="0 10 60" ;;
    --timeout) words="10000 30000 60000 120000 300000" ;;
    *)
        case ${COMP_WORDS[1]} in
        replay | soak) words="--workers --reclaim --each" ;;
        whatif) words="--long --volumes --timeout" ;;
        serve) words="--wait $(_wol_volumes)" ;;
        nbd | format | view-add | view-remove) words=$(_wol_volumes) ;;
        esac
        ;;
    esac
    mapfile -t COMPREPLY < <(compgen -W "$words" -- "$word")
}
_wol_volumes() {
    sed -n 's/^[[:space:]]*name[[:space:]]*=[[:space:]]*"\([a-z0-9_-]*\)".*/\1/p' wol.toml 2>/dev/null
}
complete -o default -F _wol wol
