# Completion of the options of pgn-extract, and of the commands beside it, in bash.
_pgn_extract() {
    local word before option
    _pgn_extract_words
    case $before in
    --criteria)
        mapfile -t COMPREPLY < <(compgen -f -- "$word")
        return
        ;;
    --where)
        _pgn_extract_criteria "$word"
        return
        ;;
    --min-ply | --max-ply | --from | --until | --set | --drop | --order | --to-ply | \
        -w | --width) return ;;
    esac
    if [[ $word == -* ]]; then
        mapfile -t COMPREPLY < <(compgen -W "$_pgn_extract_options" -- "$word")
        for option in "${COMP_WORDS[@]:0:COMP_CWORD}"; do
            _pgn_extract_excluded "$option"
        done
    else
        mapfile -t COMPREPLY < <(compgen -f -- "$word")
    fi
    return 0
}
# (written by tools/completions)
_pgn_extract_options='--list --fen --next --rows --csv --tsv --jsonl --no-header --packed --index
    --moves --uci --pack --criteria --where --openings --min-ply --max-ply --first --tags-first
    --others --faulty --as-is -C --no-comments --keep-commands --strip-commands -N --no-glyphs -V
    --no-variations --roster -w --width --set --drop --fix-results --plycount --order --to-ply
    --from-position --lines --explain --summary --progress --no-progress --from --until --at
    --with-names --no-names -h --help --version'
# Takes out what the program refuses beside an option.
_pgn_extract_excluded() {
    case $1 in
    --list) _pgn_extract_without --rows --csv --tsv --jsonl --no-header --index --moves --uci \
        --pack --others --faulty --as-is --set --drop --fix-results --plycount --order --to-ply \
        --from-position ;;
    --fen) _pgn_extract_without --rows --csv --tsv --jsonl --no-header --index --moves --uci \
        --pack --others --faulty --as-is --set --drop --fix-results --plycount --order --to-ply \
        --from-position ;;
    --next) _pgn_extract_without --rows --csv --tsv --jsonl --no-header --index --moves --uci \
        --pack --others --faulty --as-is --set --drop --fix-results --plycount --order --to-ply \
        --from-position ;;
    --rows) _pgn_extract_without --list --fen --next --index --moves --uci --pack --others \
        --faulty --as-is --set --drop --fix-results --plycount --order --to-ply --from-position ;;
    --csv) _pgn_extract_without --list --fen --next --tsv --jsonl --index --moves --uci --pack \
        --others --faulty --as-is --set --drop --fix-results --plycount --order --to-ply \
        --from-position ;;
    --tsv) _pgn_extract_without --list --fen --next --csv --jsonl --index --moves --uci --pack \
        --others --faulty --as-is --set --drop --fix-results --plycount --order --to-ply \
        --from-position ;;
    --jsonl) _pgn_extract_without --list --fen --next --csv --tsv --index --moves --uci --pack \
        --others --faulty --as-is --set --drop --fix-results --plycount --order --to-ply \
        --from-position ;;
    --no-header) _pgn_extract_without --list --fen --next --index --moves --uci --pack --others \
        --faulty --as-is --set --drop --fix-results --plycount --order --to-ply --from-position ;;
    --packed) _pgn_extract_without --moves --uci --pack --tags-first --others --faulty --as-is \
        --set --drop --fix-results --plycount --order --to-ply --from-position --lines --from \
        --until --at --with-names --no-names ;;
    --index) _pgn_extract_without --list --fen --next --rows --csv --tsv --jsonl --no-header \
        --moves --uci --pack --tags-first --others --faulty --as-is --set --drop --fix-results \
        --plycount --order --to-ply --from-position --lines ;;
    --moves) _pgn_extract_without --list --fen --next --rows --csv --tsv --jsonl --no-header \
        --packed --index --uci --pack --faulty --as-is --set --drop --fix-results --plycount \
        --order --to-ply --from-position ;;
    --uci) _pgn_extract_without --list --fen --next --rows --csv --tsv --jsonl --no-header \
        --packed --index --moves --pack --faulty --as-is --set --drop --fix-results --plycount \
        --order --to-ply --from-position ;;
    --pack) _pgn_extract_without --list --fen --next --rows --csv --tsv --jsonl --no-header \
        --packed --index --moves --uci --tags-first --faulty --as-is -C --no-comments \
        --keep-commands --strip-commands -N --no-glyphs -V --no-variations --roster -w --width \
        --set --drop --fix-results --plycount --order --to-ply --from-position --lines ;;
    --openings) _pgn_extract_without --tags-first ;;
    --tags-first) _pgn_extract_without --packed --index --pack --openings --others --faulty ;;
    --others) _pgn_extract_without --list --fen --next --rows --csv --tsv --jsonl --no-header \
        --packed --index --tags-first --faulty --from-position --lines ;;
    --faulty) _pgn_extract_without --list --fen --next --rows --csv --tsv --jsonl --no-header \
        --packed --index --moves --uci --pack --tags-first --others --set --drop --fix-results \
        --plycount --order --to-ply --from-position --lines ;;
    --as-is) _pgn_extract_without --list --fen --next --rows --csv --tsv --jsonl --no-header \
        --packed --index --moves --uci --pack --set --drop --fix-results --plycount --order \
        --to-ply --from-position --lines ;;
    -C | --no-comments) _pgn_extract_without --pack ;;
    --keep-commands) _pgn_extract_without --pack --strip-commands ;;
    --strip-commands) _pgn_extract_without --pack --keep-commands ;;
    -N | --no-glyphs) _pgn_extract_without --pack ;;
    -V | --no-variations) _pgn_extract_without --pack --lines ;;
    --roster) _pgn_extract_without --pack ;;
    -w | --width) _pgn_extract_without --pack ;;
    --set) _pgn_extract_without --list --fen --next --rows --csv --tsv --jsonl --no-header \
        --packed --index --moves --uci --pack --faulty --as-is ;;
    --drop) _pgn_extract_without --list --fen --next --rows --csv --tsv --jsonl --no-header \
        --packed --index --moves --uci --pack --faulty --as-is ;;
    --fix-results) _pgn_extract_without --list --fen --next --rows --csv --tsv --jsonl --no-header \
        --packed --index --moves --uci --pack --faulty --as-is ;;
    --plycount) _pgn_extract_without --list --fen --next --rows --csv --tsv --jsonl --no-header \
        --packed --index --moves --uci --pack --faulty --as-is ;;
    --order) _pgn_extract_without --list --fen --next --rows --csv --tsv --jsonl --no-header \
        --packed --index --moves --uci --pack --faulty --as-is ;;
    --to-ply) _pgn_extract_without --list --fen --next --rows --csv --tsv --jsonl --no-header \
        --packed --index --moves --uci --pack --faulty --as-is ;;
    --from-position) _pgn_extract_without --list --fen --next --rows --csv --tsv --jsonl \
        --no-header --packed --index --moves --uci --pack --others --faulty --as-is --lines ;;
    --lines) _pgn_extract_without --packed --index --pack --others --faulty --as-is -V \
        --no-variations --from-position ;;
    --progress) _pgn_extract_without --no-progress ;;
    --no-progress) _pgn_extract_without --progress ;;
    --from) _pgn_extract_without --packed ;;
    --until) _pgn_extract_without --packed ;;
    --at) _pgn_extract_without --packed ;;
    --with-names) _pgn_extract_without --packed --no-names ;;
    --no-names) _pgn_extract_without --packed --with-names ;;
    esac
}
# (end)
# Takes options out of what is offered.
_pgn_extract_without() {
    local offered=() option
    for option in "${COMPREPLY[@]}"; do
        [[ " $* " == *" $option "* ]] || offered+=("$option")
    done
    COMPREPLY=("${offered[@]}")
}
# Sets what is completed, and the option before it.
_pgn_extract_words() {
    word=${COMP_WORDS[COMP_CWORD]} before=${COMP_WORDS[COMP_CWORD - 1]}
    # (bash divides --criteria=FILE into three)
    if [[ $word == = ]]; then
        word=
    elif [[ $before == = ]]; then
        before=${COMP_WORDS[COMP_CWORD - 2]}
    fi
}
# Offers what a line of criteria, perhaps with its opening quote, may go on with.
_pgn_extract_criteria() {
    local line=${1#[\"\']} before='' words conditions='fen flip position material moves next played plies result tag number date turn check mate stalemate'
    line=${line//\\ / }
    [[ $line == *' '* ]] && before="${line% *} "
    case $before in
    '') words="$conditions for count not either or" ;;
    'not ') words=$conditions ;;
    'either ') words='fen flip material turn not' ;;
    'either not ') words='fen flip material turn' ;;
    'flip ' | *' flip ') words=fen ;;
    'turn ' | *' turn ') words='white black' ;;
    'result ' | *' result ') words='1-0 0-1 1/2-1/2 *' ;;
    'plies ' | 'not plies ' | 'count ') words='= <> < <= > >=' ;;
    'tag ' | 'not tag ') words='Event Site Date Round White Black Result ECO WhiteElo BlackElo White|Black' ;;
    'number ' | 'not number ') words='WhiteElo BlackElo WhiteElo|BlackElo Round' ;;
    'date ' | 'not date ') words='Date EventDate Date|EventDate' ;;
    'number '[!\ ]*' ' | 'not number '[!\ ]*' ' | 'date '[!\ ]*' ' | 'not date '[!\ ]*' ') words='= <> < <= > >=' ;;
    'tag '[!\ ]*' ' | 'not tag '[!\ ]*' ') words='= <> < <= > >= has begins' ;;
    *) return ;;
    esac
    mapfile -t COMPREPLY < <(compgen -W "$words" -- "${line##* }")
    COMPREPLY=("${COMPREPLY[@]/#/$before}")
}
# Offers the options of a command beside the program, or files.
_pgn_extract_command() {
    local word before options='-h --help --version'
    _pgn_extract_words
    case $before in
    --where)
        _pgn_extract_criteria "$word"
        return
        ;;
    --keep)
        mapfile -t COMPREPLY < <(compgen -W "first longest-tags longest-text" -- "$word")
        return
        ;;
    --encoding)
        mapfile -t COMPREPLY < <(compgen -W "cp1250 cp1251 cp1252 cp437 cp850 cp852 cp866 latin-1" -- "$word")
        return
        ;;
    --language)
        mapfile -t COMPREPLY < <(compgen -W "cs da de es et fi fr hu is it nl no pl pt ro sv" -- "$word")
        return
        ;;
    --by)
        mapfile -t COMPREPLY < <(compgen -W "year eco player event White Black Round Site Result" -- "$word")
        return
        ;;
    --fen | --moves | --plies | --least) return ;;
    --jobs | --part | --sshlogin | --columns | --size | --title) return ;;
    esac
    case ${COMP_WORDS[0]##*/} in
    pgn-board) options+=' --tsv --jsonl --columns --size --flip --flip=auto --title -o' ;;
    pgn-mend)
        options+=' --dry-run --summary --encoding --latin-1 --language'
        options+=' --no-values --no-tags --no-missing-results --no-byte-order-marks --no-dos-ends'
        options+=' --no-line-ends --no-utf-16 --no-compression --no-nested --no-blanks --no-signs'
        options+=' --no-results --no-figurines --no-castling --no-en-passant --no-lower-case'
        options+=' --no-languages --no-variants'
        ;;
    pgn-tree) options+=' --fen --moves --plies --least --json --lines --packed --criteria --where' ;;
    pgn-unique) options+=' --keep --report --keep-faulty --against --keys --near --drop-near' ;;
    pgn-split) options+=' --by --to --force' ;;
    pgn-extract-parallel) _pgn_extract && options='--jobs --part --sshlogin' ;;
    esac
    if [[ $word == -* ]]; then
        mapfile -t -O "${#COMPREPLY[@]}" COMPREPLY < <(compgen -W "$options" -- "$word")
    elif [[ ${#COMPREPLY[@]} == 0 ]]; then
        mapfile -t COMPREPLY < <(compgen -f -- "$word")
    fi
}
complete -o filenames -F _pgn_extract pgn-extract pgn-extract-proved
complete -o filenames -F _pgn_extract_command pgn-board pgn-extract-parallel pgn-mend pgn-split pgn-tree pgn-unique
