# Completion of pamsess and the scripts beside it for bash: commands, directories, the services and the users below ROOT.
# In a checkout: . completions/pamsess.bash; then ./pamsess is completed, too.
#
# Names of services and users come from the files of a tree that may be anybody's. So none of them is expanded (as `compgen -W`
# would do), none is a pattern of files, and each is offered as printf's %q quotes it.

# Sets `plain` to a word without its quotes. Nothing in it is expanded, except that a leading `~` means a home directory.
_pamsess_plain() {
    local rest=$1 quote="" char
    plain=
    # shellcheck disable=SC2088 # (a tilde that was typed, and isn't to be expanded here)
    case $rest in
        "~" | "~/"*) plain=$HOME rest=${rest#"~"} ;;
    esac
    while [ -n "$rest" ]; do
        char=${rest:0:1} rest=${rest:1}
        if [ "$char" = "\\" ] && [ "$quote" != "'" ]; then
            plain+=${rest:0:1} rest=${rest:1}
        elif [ "$char" = "$quote" ]; then
            quote=
        elif [ -z "$quote" ] && { [ "$char" = "'" ] || [ "$char" = '"' ]; }; then
            quote=$char
        else
            plain+=$char
        fi
    done
}

# Adds a name to COMPREPLY if it begins with what was typed. Inside quotes only names that need none are offered.
_pamsess_offer() {
    local quoted
    case $2 in
        "$plain"*) ;;
        *) return ;;
    esac
    printf -v quoted %q "$2"
    case $1 in
        \"* | \'* | \$*) [ "$quoted" = "$2" ] || return 0 ;;
    esac
    COMPREPLY+=("$quoted")
}

# The services and the users of a root.
_pamsess_services() {
    local file
    for file in "$1"/etc/pam.d/* "$1"/etc/pam.d/.[!.]*; do
        [ ! -f "$file" ] || _pamsess_offer "$2" "${file##*/}"
    done
}

_pamsess_users() {
    local name rest
    [ -f "$1/etc/passwd" ] && [ -r "$1/etc/passwd" ] || return 0
    while IFS=: read -r name rest; do
        [ -z "$name" ] || _pamsess_offer "$2" "$name"
    done <"$1/etc/passwd"
}

# What the argument of a kind may be, in COMPREPLY. The root is an argument as it was typed.
_pamsess_kind() {
    local word=$1 kind=$2 root plain each
    _pamsess_plain "$3"
    root=$plain
    _pamsess_plain "$word"
    COMPREPLY=()
    case $kind in
        command) for each in run check login generate tally audit wire; do _pamsess_offer "$word" "$each"; done ;;
        call) for each in authenticate acct_mgmt setcred open_session close_session chauthtok; do _pamsess_offer "$word" "$each"; done ;;
        directory)
            compopt -o filenames 2>/dev/null
            while IFS= read -r each; do
                COMPREPLY+=("$each")
            done < <(compgen -d -- "$word")
            ;;
        file)
            compopt -o filenames 2>/dev/null
            while IFS= read -r each; do
                COMPREPLY+=("$each")
            done < <(compgen -f -- "$word")
            ;;
        service) _pamsess_services "$root" "$word" ;;
        user) _pamsess_users "$root" "$word" ;;
    esac
}

_pamsess() {
    local word=${COMP_WORDS[COMP_CWORD]} command=${COMP_WORDS[0]##*/} first=${COMP_WORDS[1]-} number=$COMP_CWORD at=0
    local -a kinds
    case $command in
        pamsess-check-all) kinds=(directory) ;;
        pamsess-explain)
            kinds=(directory service user)
            # (options before ROOT)
            case $first,${COMP_WORDS[2]-} in
                --html,--script | --json,--script) kinds=(option option file "${kinds[@]}") ;;
                --html,* | --json,*) kinds=(option "${kinds[@]}") ;;
                --script,*) kinds=(option file "${kinds[@]}") ;;
            esac
            ;;
        pamsess-ways)
            kinds=(directory service)
            case $first,${COMP_WORDS[2]-} in
                --json,--compare) kinds=(option option directory directory service) ;;
                --json,*) kinds=(option directory service) ;;
                --compare,*) kinds=(option directory directory service) ;;
            esac
            ;;
        pamsess-what-if) kinds=(directory service user) ;;
        pamsess-stand-in) kinds=(directory directory user) ;;
        pamsess-try) kinds=(directory service user call call call call call call) ;;
        *)
            case $first in
                run | wire) kinds=(command directory) ;;
                check | audit) kinds=(command directory service) ;;
                login) kinds=(command directory service user) ;;
                tally) kinds=(command directory user) ;;
                *) kinds=(command) ;;
            esac
            ;;
    esac
    # The root is the first directory.
    while [ "${kinds[at]-directory}" != directory ]; do at=$((at + 1)); done
    _pamsess_kind "$word" "${kinds[number - 1]-}" "${COMP_WORDS[at + 1]-}"
}

complete -F _pamsess pamsess pamsess-check-all pamsess-explain pamsess-stand-in pamsess-try pamsess-ways pamsess-what-if
