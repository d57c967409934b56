# Completion of the commands, kinds, options and files of cert_tool and its scripts in bash.

# Prints the options of a command and its kind.
_cert_tool_options() {
    case $1 in
        questions) echo "--anchors --leaf-first --limit --help" ;;
        verify)
            echo "--anchors --answers --at --purpose --host --strict --warn-days --leaf-first"
            echo "--limit --json --help"
            ;;
        "explain chain")
            echo "--anchors --answers --at --purpose --host --strict --leaf-first"
            echo "--fail-on-remark --limit --json --help"
            ;;
        "explain stream") echo "--limit --json --help" ;;
        "explain anchors") echo "--json --help" ;;
        explain*) echo "--fail-on-remark --json --help" ;;
        "describe stream") echo "--digests --json --limit --help" ;;
        describe*) echo "--digests --json --help" ;;
        split) echo "--limit --place --json --help" ;;
        reverse) echo "--limit --help" ;;
        serve) echo --help ;;
        cert_tool_verify_pem) echo "--host --strict --warn-days --at --purpose --tool --help" ;;
        cert_tool_answer) echo --help ;;
        *) echo "--version --help" ;;
    esac
}

_cert_tool() {
    local word=${COMP_WORDS[COMP_CWORD]} before=${COMP_WORDS[COMP_CWORD - 1]} words= it
    local kinds="certificate list request ocsp-request ocsp-response message key timestamp"
    [ "$before" != = ] || before=${COMP_WORDS[COMP_CWORD - 2]}
    # The command, after which explain and describe have a kind.
    local command=
    [ "${1##*/}" = cert_tool ] || command=${1##*/}
    for it in "${COMP_WORDS[@]:1:COMP_CWORD-1}"; do
        case $command/$it in
            /questions | /verify | /explain | /describe | /split | /reverse | /serve) command=$it ;;
            explain/* | describe/*)
                [[ $it = -* || $command = *" "* ]] || command+=" $it"
                ;;
        esac
    done
    case $before in
        --purpose)
            words="serverAuth clientAuth codeSigning emailProtection timeStamping OCSPSigning"
            words+=" anyExtendedKeyUsage"
            ;;
        --at) words=now ;;
        --anchors | --answers | --host | --warn-days | --limit | --place | --tool) ;;
        *)
            case $command/$word in
                */-*) words=$(_cert_tool_options "$command") ;;
                /*) words="questions verify explain describe split reverse serve" ;;
                explain/*) words="$kinds anchors stream chain" ;;
                describe/*) words="$kinds stream" ;;
            esac
            ;;
    esac
    mapfile -t COMPREPLY < <(compgen -W "$words" -- "$word")
}
complete -o bashdefault -o default -F _cert_tool cert_tool cert_tool_answer cert_tool_verify_pem
