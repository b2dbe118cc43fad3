# Completion of viqeshord for bash.
_viqeshord() {
    local word=${COMP_WORDS[COMP_CWORD]} before=${COMP_WORDS[COMP_CWORD - 1]} sub=${COMP_WORDS[1]}
    local topics="mroute why neighbors igmp rp bsr msdp interfaces joins upstream asserts rpf counters"
    COMPREPLY=()
    if ((COMP_CWORD == 1)); then
        COMPREPLY=($(compgen -W "run show import clear help --help --version" -- "$word"))
        return
    fi
    case $before in
        --socket)
            COMPREPLY=($(compgen -f -- "$word"))
            return
            ;;
        --instance | --vrf)
            COMPREPLY=($(compgen -W "$(ip -o link show type vrf 2>/dev/null | sed 's/^[0-9]*: \([^:@]*\).*/\1/')" -- "$word"))
            return
            ;;
        interface)
            COMPREPLY=($(compgen -W "$(ls /sys/class/net 2>/dev/null)" -- "$word"))
            return
            ;;
    esac
    case $sub in
        run) COMPREPLY=($(compgen -W "--check --help" -- "$word") $(compgen -f -- "$word")) ;;
        import) COMPREPLY=($(compgen -W "--vrf --json --help" -- "$word") $(compgen -f -- "$word")) ;;
        show) COMPREPLY=($(compgen -W "$topics --json --watch --instance --socket --help" -- "$word")) ;;
        clear) COMPREPLY=($(compgen -W "counters mroute interface --instance --socket --help" -- "$word")) ;;
    esac
}
complete -F _viqeshord viqeshord
