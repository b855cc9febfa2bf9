# Completion of osc for bash: `source completion/osc.bash`, or copy it to /usr/share/bash-completion/completions/osc.
# What is between the marks `words:` is written by `python3 scripts/pages --write`, from the program's help.

# words: words
declare -gA _osc_words=(
    ["osc"]="sim token key store server proxy client context lab help --help -h --version -V"
    ["sim"]="--bytes --lines --only --diagram --pcap --help -h"
    ["token"]="--key --key-file --aud --id --secret --secret-file --scope --salt --context --alg --exp --for --nbf --iv --help -h"
    ["key"]="--help -h"
    ["store"]="--dump --until-damage --backup --help -h"
    ["server"]="--config --check --turns --log --counters --help -h"
    ["proxy"]="--config --check --turns --log --counters --help -h"
    ["client"]="--turns --timeout --method --path --payload --text --payload-file --format --config --requests --every --raw --again --check --help -h"
    ["context"]="--form --timeout --config --out --help -h"
    ["lab"]="--turns --ipv6 --help -h"
    ["help"]="sim token key store server proxy client context lab"
)
# words: end

# words: values
declare -gA _osc_values=(
    ["sim --only"]=CLIENT
    ["sim --pcap"]=FILE
    ["token --key"]=HEX
    ["token --key-file"]=FILE
    ["token --aud"]=TEXT
    ["token --id"]=HEX
    ["token --secret"]=HEX
    ["token --secret-file"]=FILE
    ["token --scope"]=TEXT
    ["token --salt"]=HEX
    ["token --context"]=HEX
    ["token --alg"]=N
    ["token --exp"]=N
    ["token --for"]=TIME
    ["token --nbf"]=N
    ["token --iv"]=HEX
    ["store --backup"]=TO
    ["store"]=FILE
    ["server --config"]=FILE
    ["server --turns"]=N
    ["server --counters"]=SECONDS
    ["proxy --config"]=FILE
    ["proxy --turns"]=N
    ["proxy --counters"]=SECONDS
    ["client --turns"]=N
    ["client --timeout"]=SECONDS
    ["client --method"]=METHOD
    ["client --path"]=PATH
    ["client --payload"]=HEX
    ["client --text"]=TEXT
    ["client --payload-file"]=FILE
    ["client --format"]=N
    ["client --config"]=FILE
    ["client --requests"]=FILE
    ["client --every"]=SECONDS
    ["context --form"]=FORM
    ["context --timeout"]=SECONDS
    ["context --config"]=FILE
    ["context --out"]=TO
    ["lab --turns"]=N
)
# words: end

# _osc_offer WORDS: those of the words that begin as the last word does.
_osc_offer() {
    mapfile -t COMPREPLY < <(compgen -W "$1" -- "${COMP_WORDS[COMP_CWORD]}")
}

# _osc_left WORDS: the words that don't stand on the line yet. No option may stand there twice.
_osc_left() {
    local word
    for word in $1; do
        if [[ " ${COMP_WORDS[*]:0:COMP_CWORD} " != *" $word "* ]]; then printf '%s ' "$word"; fi
    done
}

# _osc_files: the files whose names begin as the last word does.
_osc_files() {
    compopt -o filenames 2>/dev/null
    mapfile -t COMPREPLY < <(compgen -f -- "${COMP_WORDS[COMP_CWORD]}")
}

_osc() {
    local command=${COMP_WORDS[1]-} before=${COMP_WORDS[COMP_CWORD - 1]} last=${COMP_WORDS[COMP_CWORD]}
    COMPREPLY=()
    if [ "$COMP_CWORD" = 1 ]; then
        _osc_offer "${_osc_words[osc]}"
        return
    fi
    case "$command $before" in
    'context --form') _osc_offer 'libcoap aiocoap json' ;;
    'client --method') _osc_offer 'GET POST PUT DELETE' ;;
    'sim --only') _osc_offer 'c1 c2 c3 c4 c5 c6 c7 c8 c9' ;;
    'token --alg') _osc_offer '10 30' ;;
    'server --log' | 'proxy --log') _osc_offer "text json $(_osc_left "${_osc_words["$command"]}")" ;;
    *)
        case ${_osc_values["$command $before"]-} in
        FILE | TO) _osc_files ;;
        '')
            if [ "${_osc_values["$command"]-}" = FILE ] && [[ $last != -* ]]; then
                _osc_files
            else
                _osc_offer "$(_osc_left "${_osc_words["$command"]-}")"
            fi
            ;;
        esac
        ;;
    esac
}

complete -F _osc osc
