# What bash offers after `plc`, `plc-show` and `plc-hunt`: commands, reclaimers and files.
_plc() {
    local word=${COMP_WORDS[COMP_CWORD]} offer=
    case ${COMP_WORDS[0]##*/}:$COMP_CWORD:${COMP_WORDS[1]} in
    plc:1:*) offer="check suggest locate replay certify verify print sample help --version" ;;
    plc:4:replay | plc-show:3:[!-]*) offer="leak list hazard epoch" ;;
    plc-hunt:2:*) offer="leak list hazard epoch any" ;;
    plc-show:1:-*) offer="--plain --version" ;;
    esac
    if [ -n "$offer" ]; then
        mapfile -t COMPREPLY < <(compgen -W "$offer" -- "$word")
    else
        mapfile -t COMPREPLY < <(compgen -f -- "$word")
    fi
}
complete -o filenames -F _plc plc plc-show plc-hunt
