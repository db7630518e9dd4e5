# Completion for bash: rncv, rncv-xml, rng2rnc, xml2pyx, rncv-profile and rncv-lsp.

# _rncv_files WORD PATTERN..: files whose names match a pattern, and folders
_rncv_files() {
    local found pattern word=$1
    shift
    compopt -o filenames
    COMPREPLY=()
    while IFS= read -r found; do
        COMPREPLY+=("$found")
    done < <(compgen -d -- "$word"; for pattern in "$@"; do compgen -f -X "!$pattern" -- "$word"; done)
}

# _rncv_words WORDS WORD
_rncv_words() {
    local word
    COMPREPLY=()
    while IFS= read -r word; do
        COMPREPLY+=("$word")
    done < <(compgen -W "$1" -- "$2")
}

_rncv() {
    if [ "$COMP_CWORD" = 1 ]; then
        _rncv_words "valid check simple" "$2"
    else
        _rncv_files "$2" '*.rnc'
    fi
}

_rncv_xml() {
    local word schemas=0
    case $3 in
    --format) _rncv_words "text json sarif github" "$2"; return ;;
    --color) _rncv_words "auto always never" "$2"; return ;;
    --datatypes) _rncv_words "xml-schema profile" "$2"; return ;;
    --files-from | --map | --catalog) _rncv_files "$2" '*'; return ;;
    --glob | --stdin-name | -j | --jobs | --max-faults | --max-depth | --max-memory | --max-attributes) return ;;
    esac
    case $2 in
    -*)
        _rncv_words "--recursive -r --glob --files-from --null -0 --stdin-name --jobs -j --map --catalog --datatypes --dtd --max-depth --max-memory --max-attributes --no-ids --strict --print-schema --strict-profile --all --verbose -v --quiet -q --max-faults --format --color --source --no-source --help -h --version" "$2"
        return
        ;;
    esac
    # the first word that is a schema makes the others documents
    for word in "${COMP_WORDS[@]:1:COMP_CWORD-1}"; do
        case $word in
        *.rnc | *.rng) schemas=1 ;;
        esac
    done
    if [ "$schemas" = 0 ]; then
        _rncv_files "$2" '*.rnc' '*.rng'
    else
        _rncv_files "$2" '*.xml' '*.rnc' '*.rng'
    fi
}

_rng2rnc() {
    case $3 in
    -o | --output) compopt -o dirnames; COMPREPLY=(); return ;;
    --map | --catalog) _rncv_files "$2" '*'; return ;;
    esac
    case $2 in
    -*) _rncv_words "--output -o --map --catalog --help -h --version" "$2" ;;
    *) _rncv_files "$2" '*.rng' ;;
    esac
}

_xml2pyx() {
    case $3 in
    --lines) _rncv_files "$2" '*'; return ;;
    esac
    case $2 in
    -*) _rncv_words "--dtd --lines --help -h --version" "$2" ;;
    *) _rncv_files "$2" '*.xml' ;;
    esac
}

_rncv_profile() {
    case $3 in
    -o | --write) compopt -o dirnames; COMPREPLY=(); return ;;
    --datatypes) _rncv_words "profile xml-schema" "$2"; return ;;
    esac
    case $2 in
    -*) _rncv_words "--datatypes --watch --write -o --help -h" "$2" ;;
    *) _rncv_files "$2" '*.rnc' ;;
    esac
}

_rncv_lsp() {
    case $3 in
    --datatypes) _rncv_words "xml-schema profile" "$2"; return ;;
    --max-faults) COMPREPLY=(); return ;;
    esac
    _rncv_words "--datatypes --max-faults --stdio --help -h --version" "$2"
}

complete -F _rncv rncv
complete -F _rncv_xml rncv-xml
complete -F _rng2rnc rng2rnc
complete -F _xml2pyx xml2pyx
complete -F _rncv_profile rncv-profile
complete -F _rncv_lsp rncv-lsp
