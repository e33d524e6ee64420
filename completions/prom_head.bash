# Completes the words of prom_head in bash.
_prom_head() {
    local word=${COMP_WORDS[COMP_CWORD]} options=
    if [ "$COMP_CWORD" -eq 1 ]; then
        mapfile -t COMPREPLY < <(compgen -W 'inspect rescue unpack replay records series analyze dump ranges cut blocks block append live checkpoint help --help --version' -- "$word")
        return
    fi
    case ${COMP_WORDS[1]} in
        inspect) options='-h --json --min-valid --min-valid-of --help' ;;
        rescue) options='-h --out --ulid --json --workers --round-pages --min-valid --min-valid-of --help' ;;
        unpack) options='-h --out --through-damage --past-damage --help' ;;
        replay) options='-z -h --unpack --past-damage --workers --round-pages --min-valid --min-valid-of --help' ;;
        records) options='-z -h --unpack --past-damage --help' ;;
        series) options='-z -h --pair --unpack --past-damage --workers --round-pages --min-valid --min-valid-of --help' ;;
        analyze) options='-z -h --most --unpack --past-damage --workers --round-pages --min-valid --min-valid-of --help' ;;
        dump) options='-z -h --pair --from --to --floats --hidden --unpack --past-damage --workers --round-pages --min-valid --min-valid-of --help' ;;
        ranges) options='-z -h --unpack --past-damage --workers --round-pages --min-valid --min-valid-of --help' ;;
        cut) options='-z -h --hour --ulid --out --xor --unpack --past-damage --workers --round-pages --min-valid --min-valid-of --help' ;;
        blocks) options='-z -h --out --ulid --memory --unpack --past-damage --workers --round-pages --min-valid --min-valid-of --help' ;;
        block) options='-h --help' ;;
        append) options='-h --rows --floats --workers --round-pages --min-valid --min-valid-of --help' ;;
        live) options='-h --out --rows --floats --sync --after --workers --round-pages --min-valid --min-valid-of --help' ;;
        checkpoint) options='-z -h --unpack --past-damage --min-valid --min-valid-of --keep-skipped --help' ;;
        help) options='inspect rescue unpack replay records series analyze dump ranges cut blocks block append live checkpoint' ;;
    esac
    if [[ $word == -* || ${COMP_WORDS[1]} == help ]]; then
        mapfile -t COMPREPLY < <(compgen -W "$options" -- "$word")
    else
        mapfile -t COMPREPLY < <(compgen -f -- "$word")
    fi
}
complete -o filenames -F _prom_head prom_head
