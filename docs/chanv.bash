# Completes the words of chanv in bash; `make install` puts it where bash looks for it.
_chanv() {
    local word=${COMP_WORDS[COMP_CWORD]} before=${COMP_WORDS[COMP_CWORD - 1]}
    # the table of commands: tests/commands.py
    local commands='verify list why needs graph find deck explain show help'
    local -A options=(
        [verify]=''
        [list]='--wide --range'
        [why]='--all --of'
        [needs]='--deck'
        [graph]=''
        [find]='--device --limit --at --storage --raw'
        [deck]='--device --mask --start --limit --extent --fetch --store --least --open --at --storage --raw'
        [explain]=''
        [show]='--name'
    )
    local valued='--at --device --extent --fetch --limit --mask --of --range --start --storage --store'
    # end of the table
    local reasons='misaligned outside-storage transfer-not-allowed invalid-code bad-format
        zero-count data-outside not-in-table inhibited store-not-lent fetch-not-lent short-seek
        seek-outside changes-ccw changes-argument weakens-mask'
    local causes='ended header form mask extent-backwards extent-past-device size put-address
        put-zero after limit'
    local failures='cannot-open no-such-file permission-denied is-a-folder read-failed
        deck-too-long image-too-long image-past-storage too-many-places
        no-job-will-do write-failed out-of-memory not-a-ccw no-such-word'
    local output='yes no place fresh in out search t flags invalid control read write read-backward
        transfer chained unknown no-ccw because also extent fetch store keep kept lent job deck
        image dump put device start end storage argument cylinder head record key guarded clear fetches stores skips found expected note help
        transfer-in-channel'
    local commands_of_disk='no-operation seek seek-cylinder seek-head recalibrate set-file-mask sense
        search-home-address-equal search-id-equal search-id-high search-id-equal-or-high
        search-key-equal search-key-high search-key-equal-or-high read-home-address read-count
        read-record-zero read-data read-key-data read-count-key-data write-home-address
        write-record-zero write-count-key-data write-special-count-key-data erase write-data
        write-key-data search-home-address-equal-mt search-id-equal-mt search-id-high-mt
        search-id-equal-or-high-mt search-key-equal-mt search-key-high-mt
        search-key-equal-or-high-mt read-home-address-mt read-count-mt read-record-zero-mt
        read-data-mt read-key-data-mt read-count-key-data-mt'
    local words='--help' files=yes
    # bash splits --device=2311 into three words
    if [[ $before == = ]]; then
        before=${COMP_WORDS[COMP_CWORD - 2]}
    elif [[ $word == = ]]; then
        word=
    fi
    COMPREPLY=()
    if ((COMP_CWORD == 1)); then
        words="$commands --help --version"
        files=
    else
        words="${options[${COMP_WORDS[1]}]-} --help"
        [[ $before == --device ]] || [[ " $valued " != *" $before "* ]] || return
        case ${COMP_WORDS[1]} in
        help) words=$commands files= ;;
        show) files= ;;
        explain)
            [[ $word == -* ]] || words="$reasons $causes $failures $output $commands_of_disk"
            files=
            ;;
        find | deck) [[ $before != --device ]] || words='2311 2314' files= ;;
        esac
    fi
    if [[ ! $files || $word == -* ]]; then
        mapfile -t COMPREPLY < <(compgen -W "$words" -- "$word")
    else
        mapfile -t COMPREPLY < <(compgen -f -- "$word")
    fi
}
complete -o filenames -F _chanv chanv
