# bash completion for lentsheep: commands as its help has them, units of the root, options, files.
_lentsheep() {
    local word command='' root='' at current=${COMP_WORDS[COMP_CWORD]} before=${COMP_WORDS[COMP_CWORD - 1]} place
    COMPREPLY=()
    case $before in
        --root | --units)
            mapfile -t COMPREPLY < <(compgen -d -- "$current")
            return
            ;;
        --calls | --site | --html | --expect | --write | --drop-in | --overrides | --keep | --strace)
            mapfile -t COMPREPLY < <(compgen -f -- "$current")
            return
            ;;
    esac
    local behind=0
    for ((at = 1; at < COMP_CWORD; at++)); do
        word=${COMP_WORDS[at]}
        case $word in
            --root | --units) at=$((at + 1)) root=${COMP_WORDS[at]-} ;;
            --calls | --site | --top | --html | --expect | --write | --drop-in | --overrides | --severity | --keep | --strace) at=$((at + 1)) ;;
            -*) ;;
            *) [ -n "$command" ] && behind=$((behind + 1)) || command=$word ;;
        esac
    done
    local commands
    commands=$("${COMP_WORDS[0]}" --help 2>/dev/null | awk '/^  [a-z-]+ \[?[A-Z]/ { print $1 }')
    commands="$commands harden lint"
    case $current:$command:$behind in
        -*:lint:*) mapfile -t COMPREPLY < <(compgen -W '--root --overrides --severity --explain --list-tags --help' -- "$current") ;;
        -*:harden:*) mapfile -t COMPREPLY < <(compgen -W '--root --drop-in --keep --strace --help' -- "$current") ;;
        -*) mapfile -t COMPREPLY < <(compgen -W '--root --units --calls --site --fresh --full --verbose --all --top --drop-in --brief --json --html --expect --write --compare --help --version' -- "$current") ;;
        *::*) mapfile -t COMPREPLY < <(compgen -W "$commands" -- "$current") ;;
        *:lint:*) mapfile -t COMPREPLY < <(compgen -f -- "$current") ;;
        *:sample:* | *:fleet:0) ;;
        *:check:1)
            mapfile -t COMPREPLY < <(compgen -W 'families mdwe realtime suid namespaces hostname modules logs clock devices personality calls archs' -- "$current")
            ;;
        *:why:1)
            mapfile -t COMPREPLY < <(compgen -W 'see read write exec call socket ns map-wx protect-x shm-x realtime personality suid-bit cap uid gid' -- "$current")
            ;;
        *:0)
            local units=()
            for place in etc run usr/lib; do
                for word in "${root:-.}/$place/systemd/system/"*.service; do
                    [ ! -e "$word" ] || units+=("${word##*/}")
                done
            done
            mapfile -t COMPREPLY < <(
                compgen -W "${units[*]}" -- "$current" | sort -u
                compgen -f -X '!*.service' -- "$current"
                compgen -d -S / -- "$current"
            )
            ;;
        *) mapfile -t COMPREPLY < <(compgen -f -- "$current") ;;
    esac
}
complete -F _lentsheep lentsheep sandbox ./sandbox
