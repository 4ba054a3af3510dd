# Completion of the command sagepliers for bash: subcommands, options, and files where a sheet is wanted.

_sagepliers() {
    local current=${COMP_WORDS[COMP_CWORD]} previous=${COMP_WORDS[COMP_CWORD - 1]} command='' word='' options=''
    local common='--json --quiet --help --usage --version'
    COMPREPLY=()

    # The subcommand is the first word that is no option.
    for word in "${COMP_WORDS[@]:1:COMP_CWORD-1}"; do
        case $word in
        -*) ;;
        *) command=$word && break ;;
        esac
    done

    # Bash takes --input=hex apart at the =.
    [ "$current" = = ] && current=
    [ "$previous" = = ] && previous=${COMP_WORDS[COMP_CWORD - 2]}
    case $previous in
    --input) mapfile -t COMPREPLY < <(compgen -W 'any bytes hex decimal' -- "$current") && return ;;
    --form) mapfile -t COMPREPLY < <(compgen -W 'question certificate kernel' -- "$current") && return ;;
    --jobs | -j | --match) return ;;
    -o | --output) compopt -o filenames 2>/dev/null; mapfile -t COMPREPLY < <(compgen -f -- "$current") && return ;;
    esac

    case $command in
    '') mapfile -t COMPREPLY < <(compgen -W 'solve kernel compose check push name show --help --usage --version' -- "$current") && return ;;
    solve | kernel | compose) options="$common --output --hex --input" ;;
    check) options="$common --jobs --verbose --progress --match --follow --input" ;;
    push) options="$common --hex --input" ;;
    name) options=$common ;;
    show) options="$common --output --hex --words --form --input" ;;
    *) return ;;
    esac
    case $current in
    -*) mapfile -t COMPREPLY < <(compgen -W "$options" -- "$current") ;;
    *)
        [ "$command" = name ] && return
        compopt -o filenames 2>/dev/null
        mapfile -t COMPREPLY < <(compgen -f -- "$current")
        ;;
    esac
}
complete -F _sagepliers sagepliers
