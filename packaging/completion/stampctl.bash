# SPDX-License-Identifier: Apache-2.0
# Completion of stampctl for bash: source this file, or put it into share/bash-completion/completions as `stampctl`.

# The words are those between blanks: bash itself cuts an endpoint at its colons.
_stampctl() {
    local commands="list count open set close config wait quit watch metrics export explain apply help"
    local line=${COMP_LINE:0:COMP_POINT} words word="" command="" at place=0 offered="" files=""
    read -ra words <<<"$line"
    if [[ $line != *[[:space:]] ]]; then
        word=${words[-1]}
        unset 'words[-1]'
    fi
    for ((at = 1; at < ${#words[@]}; at++)); do
        case ${words[at]} in
            -s | --server) [ -n "$command" ] || ((++at)) ;;
            -*) ;;
            *) if [ -z "$command" ]; then command=${words[at]}; else ((++place)); fi ;;
        esac
    done
    case $command:${words[-1]} in
        :-s | :--server) COMPREPLY=() && return ;;
        config:--format) offered="ntp ptp" ;;
        metrics:--file | export:--file) files=yes ;;
        *:--dry-run | *:--stateless | *:--synced) ;;
        *:--*) [[ $word == -* ]] || { COMPREPLY=() && return; } ;;
    esac
    case $command:$place in
        :*) offered="$commands -s --server --version --help" ;;
        help:0) offered=$commands ;;
        count:2 | open:2 | set:2 | close:2) offered="plain auth twamp" ;;
        explain:0) files=yes ;;
        apply:*) offered=--dry-run files=yes ;;
        wait:*) offered=--pid ;;
        quit:*) offered="--wait --pid" ;;
        watch:*) offered=--seconds ;;
        metrics:*) offered=--file ;;
        export:*) offered="--listen --file" ;;
        config:*) offered+=" --stateless --format --offset --synced --scale --multiplier --key --info --tlvs" ;;
    esac
    # An option is offered once it is begun.
    [[ $word == -* ]] || offered=$(grep -v "^-" <<<"${offered// /$'\n'}")
    mapfile -t COMPREPLY < <(compgen -W "$offered" -- "$word"; [ -z "$files" ] || compgen -f -- "$word")
}
complete -o filenames -F _stampctl stampctl
