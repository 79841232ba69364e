# Completes the words of the command `preset` in bash.

# What may stand here: words of its own, `toml` for presets, `any` for all files.
_preset_wanted() {
    local command=${COMP_WORDS[1]} before=${COMP_WORDS[COMP_CWORD - 1]} word=${COMP_WORDS[COMP_CWORD]}
    # bash has the `=` of --svg=OUT as a word of its own
    [ "$word" != = ] || word=
    [ "$before" != = ] || before=${COMP_WORDS[COMP_CWORD - 2]}
    case $COMP_CWORD:$command:$before:$word in
    1:*) echo "check plan listing map explain -h --help -V --version" ;;
    *:check:--deny:*) echo notes ;;
    *:plan:--app:* | *:map:--app:*) ;;
    *:map:--svg:*) echo any ;;
    *:check:*:-*) echo "-q --quiet --deny -h --help" ;;
    *:plan:*:-*) echo "--app -h --help" ;;
    *:map:*:-*) echo "--app --svg -h --help" ;;
    *:listing:*:-* | *:explain:*:-*) echo "-h --help" ;;
    *:check:* | *:plan:* | *:map:* | *:listing:*) echo toml ;;
    *:explain:explain:*)
        echo "1 2 3 4 5 6 7 8 9 10 11 12 13 14 15 16 17 20 21 22 23 24 25 30 31 32 33 34 35 40 41 42 43 44 45 46 47" \
            "48 50 51 52 53 54 55 56 57 58 59 60 61 62 63 64 65 66 67 70 80 81"
        ;;
    esac
}

_preset() {
    local wanted word=${COMP_WORDS[COMP_CWORD]}
    wanted=$(_preset_wanted)
    [ "$word" != = ] || word=
    case $wanted in
    any) mapfile -t COMPREPLY < <(compgen -f -- "$word") ;;
    toml) mapfile -t COMPREPLY < <(compgen -f -X '!*.toml' -- "$word"; compgen -d -- "$word") ;;
    *) mapfile -t COMPREPLY < <(compgen -W "$wanted" -- "$word") ;;
    esac
    # names are quoted where they need it, and folders go on; outside of a completion there is nothing to tell this to
    case $wanted in
    any | toml) compopt -o filenames 2>/dev/null || true ;;
    esac
}

complete -F _preset preset
