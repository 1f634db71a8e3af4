# Completion of flash_cli for bash. docs/make-help makes it of bin/flash_cli.table.
_flash_cli() {
    local word=${COMP_WORDS[COMP_CWORD]} before=${COMP_WORDS[COMP_CWORD-1]} command=${COMP_WORDS[1]}
    COMPREPLY=()
    if [ "$COMP_CWORD" = 1 ]; then
        COMPREPLY=($(compgen -W "choose boot confirm reject image-make image-check table-make table-show flash-make update sweep help --help --version" -- "$word"))
        return
    fi
    case "$command $before" in
        "help "*) [ "$COMP_CWORD" != 2 ] || COMPREPLY=($(compgen -W "choose boot confirm reject image-make image-check table-make table-show flash-make update sweep" -- "$word")); return ;;
        "update --driver") COMPREPLY=($(compgen -W "0 1" -- "$word")); return ;;
        "update --cut") return ;;
        "update --fail") return ;;
        "update --tear") return ;;
        "update --upto") COMPREPLY=($(compgen -W "session boot confirm" -- "$word")); return ;;
        "sweep --tear") return ;;
    esac
    case "$command:$COMP_CWORD" in
        choose:2) compopt -o filenames 2>/dev/null; mapfile -t COMPREPLY < <(compgen -f -- "$word") ;;
        boot:2) compopt -o filenames 2>/dev/null; mapfile -t COMPREPLY < <(compgen -f -- "$word") ;;
        boot:3) compopt -o filenames 2>/dev/null; mapfile -t COMPREPLY < <(compgen -f -- "$word") ;;
        confirm:2) compopt -o filenames 2>/dev/null; mapfile -t COMPREPLY < <(compgen -f -- "$word") ;;
        confirm:3) compopt -o filenames 2>/dev/null; mapfile -t COMPREPLY < <(compgen -f -- "$word") ;;
        reject:2) compopt -o filenames 2>/dev/null; mapfile -t COMPREPLY < <(compgen -f -- "$word") ;;
        reject:3) compopt -o filenames 2>/dev/null; mapfile -t COMPREPLY < <(compgen -f -- "$word") ;;
        image-make:2) compopt -o filenames 2>/dev/null; mapfile -t COMPREPLY < <(compgen -f -- "$word") ;;
        image-make:3) compopt -o filenames 2>/dev/null; mapfile -t COMPREPLY < <(compgen -f -- "$word") ;;
        image-check:2) compopt -o filenames 2>/dev/null; mapfile -t COMPREPLY < <(compgen -f -- "$word") ;;
        table-make:2) compopt -o filenames 2>/dev/null; mapfile -t COMPREPLY < <(compgen -f -- "$word") ;;
        table-make:3) compopt -o filenames 2>/dev/null; mapfile -t COMPREPLY < <(compgen -f -- "$word") ;;
        table-show:2) compopt -o filenames 2>/dev/null; mapfile -t COMPREPLY < <(compgen -f -- "$word") ;;
        flash-make:2) compopt -o filenames 2>/dev/null; mapfile -t COMPREPLY < <(compgen -f -- "$word") ;;
        flash-make:3) compopt -o filenames 2>/dev/null; mapfile -t COMPREPLY < <(compgen -f -- "$word") ;;
        flash-make:4) COMPREPLY=($(compgen -W "1048576 2097152 4194304 8388608 16777216 33554432" -- "$word")) ;;
        flash-make:5) compopt -o filenames 2>/dev/null; mapfile -t COMPREPLY < <(compgen -f -- "$word") ;;
        update:2) compopt -o filenames 2>/dev/null; mapfile -t COMPREPLY < <(compgen -f -- "$word") ;;
        update:3) compopt -o filenames 2>/dev/null; mapfile -t COMPREPLY < <(compgen -f -- "$word") ;;
        update:4) compopt -o filenames 2>/dev/null; mapfile -t COMPREPLY < <(compgen -f -- "$word") ;;
        update:5) compopt -o filenames 2>/dev/null; mapfile -t COMPREPLY < <(compgen -f -- "$word") ;;
        update:*) COMPREPLY=($(compgen -W "--driver --cut --fail --tear --upto" -- "$word")) ;;
        sweep:2) compopt -o filenames 2>/dev/null; mapfile -t COMPREPLY < <(compgen -f -- "$word") ;;
        sweep:3) compopt -o filenames 2>/dev/null; mapfile -t COMPREPLY < <(compgen -f -- "$word") ;;
        sweep:4) compopt -o filenames 2>/dev/null; mapfile -t COMPREPLY < <(compgen -f -- "$word") ;;
        sweep:*) COMPREPLY=($(compgen -W "--tear" -- "$word")) ;;
    esac
}
complete -F _flash_cli flash_cli
