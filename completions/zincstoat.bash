# Completion of bash for zincstoat: the database first, then a command, then its keys, each once at most, and the values
# of keys that are words. Behind the first word drill come the keys of a drill.

_zincstoat() {
    local words=() keys=() values=() word name front command first=2 i

    # The words up to the current one, without the quotes of the first. Where `=` breaks words, `at=all` is three here.
    for ((i = 1; i <= COMP_CWORD; i++)); do
        word=${COMP_WORDS[i]}
        if ((i > 1)) && [[ $word == =* || ${words[${#words[@]} - 1]} == *= ]]; then
            words[${#words[@]} - 1]+=$word
        else
            words+=("$word")
        fi
    done
    word=${words[${#words[@]} - 1]}
    COMPREPLY=()

    if ((${#words[@]} == 1)); then
        # A file of the evidence. Its companions follow from its name, so they aren't offered beside it.
        compopt -o filenames 2>/dev/null
        word=${word#[\'\"]}
        word=${word//\\/}
        [[ -n $word && drill == "$word"* ]] && COMPREPLY+=(drill)
        [[ $COMP_WORDBREAKS == *=* && $word == *=* ]] && front=${word%=*}=
        while IFS= read -r name; do
            word=${name%-wal}
            word=${word%-journal}
            word=${word%-shm}
            [[ $word != "$name" && -f $word ]] || COMPREPLY+=("${name#"$front"}")
        done < <(compgen -f -- "$word")
        return
    fi

    if [[ ${words[0]} == drill ]]; then
        command=drill
        first=1
    elif ((${#words[@]} == 2)); then
        mapfile -t COMPREPLY < <(compgen -W 'timeline show map page carve explain generations history report' -- "$word")
        return
    else
        command=${words[1]}
    fi

    case $command in
    show) keys=(table at) ;;
    map) keys=(at) ;;
    page) keys=(no at) ;;
    carve) keys=(at spill) ;;
    explain) keys=(part byte at) ;;
    history) keys=(table rowid) ;;
    drill) keys=(seed leaves commits) ;;
    esac

    if [[ $word == *=* ]]; then
        name=${word%%=*}
        [[ " ${keys[*]} " == *" $name "* ]] || return
        case $command:$name in
        explain:part) values=(database wal journal) ;;
        carve:at) values=(all journal) ;;
        carve:spill) values=(no yes) ;;
        *:at) values=(journal) ;;
        esac
        # Where `=` breaks words, what stands behind it is replaced, and else the whole word is.
        [[ $COMP_WORDBREAKS == *=* ]] || front=$name=
        mapfile -t COMPREPLY < <(compgen -P "$front" -W "${values[*]}" -- "${word#*=}")
        return
    fi

    # The keys that aren't set yet, each with its `=` and no space behind it.
    compopt -o nospace 2>/dev/null
    for name in "${keys[@]}"; do
        for ((i = first; i < ${#words[@]} - 1; i++)); do
            [[ ${words[i]} == "$name="* ]] && continue 2
        done
        [[ $name= == "$word"* ]] && COMPREPLY+=("$name=")
    done
}

complete -F _zincstoat zincstoat
