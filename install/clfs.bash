# Completion for bash. install/pages makes this of clfs --help.
_clfs() {
    local word=${COMP_WORDS[COMP_CWORD]} before=${COMP_WORDS[COMP_CWORD - 1]} command=${COMP_WORDS[2]-} words="" files=()
    case $COMP_CWORD in
    1) words='--help --version' files=(-d) ;;
    2) words='format serve race trial crew check crowd dump txn archive restore share' ;;
    *)
        case $command in
        format) words='--block-sectors --container-sectors --containers --dedicated' ;;
        serve) words='--write-buffers --read-buffers --endless' ;;
        race) words='--write-buffers' ;;
        dump) words='--from --to --stream --data' ;;
        restore) words='--up-to' ;;
        share) words='--write-buffers' ;;
        esac
        case $command in share) files=(-f) ;; esac
        case "$command $before" in
        "dump --data") words='hex text none' files=() ;;
        "format --block-sectors" | "format --container-sectors" | "format --containers") words='' files=() ;;
        "serve --write-buffers" | "serve --read-buffers") words='' files=() ;;
        "race --write-buffers") words='' files=() ;;
        "dump --from" | "dump --to" | "dump --stream") words='' files=() ;;
        "restore --up-to") words='' files=() ;;
        "share --write-buffers") words='' files=() ;;
        esac
        ;;
    esac
    mapfile -t COMPREPLY < <(compgen -W "$words" -- "$word")
    if [ ${#files[@]} -gt 0 ]; then
        mapfile -t -O ${#COMPREPLY[@]} COMPREPLY < <(compgen "${files[@]}" -- "$word")
        compopt -o filenames
    fi
}
complete -F _clfs clfs
