# shellcheck shell=sh
# What ./net_tool, ./preview and the installed net_tool share: the command that words name, help, what is said on
# standard error of a silent status or of a file without nets, how the program is run, how the subcommands in Python are
# started, and a sum of the sources, by which a program that was built is known to be the one of the sources that stand
# here. Who takes this file in sets top, the folder of the repository, program, archives, the folder of archives, python,
# the folder of the package crystal_nets, and the function version.
# shellcheck disable=SC2154

# The proved commands: the word, what it takes, and what it does. Help is made of this table, and dev/check_documents compares
# README.md, docs/FORMATS.md, docs/man/net_tool.1 and the completion of bash with it.
command_table='check|[FILE]|whether each net is connected
place|[FILE]|where its vertices stand: the barycentric placement
key|[FILE]|its key; equal keys are isomorphic nets, and no others
identify|[FILE] [--archive PATH]|placement, primitive graph, key, coordination sequences, names in the archive
components|[FILE]|the components of each net, how many copies of each, and their keys
symmetry|[FILE]|all symmetries of each net, and its kinds of vertices and edges
cover|[FILE] --cell ROWS|the nets on a larger cell, 4 or 9 whole numbers with commas
add|[FILE] [--archive PATH] [--name NAME]|the archive with these nets after its own
duplicates|--archive PATH|the isomorphic nets of an archive
migrate|--archive PATH|the archive in format 2
union|[FILE] --archive PATH|the archive with the nets of another one, or of key lines (.arc)
same|[FILE]|maps from the first net to each other one that is the same
verify|[FILE]|whether each map of a text is right
workload|N|measures the program on N nets that it makes'

usage="usage: net_tool COMMAND [FILE] [--archive PATH] [--name NAME] [--cell ROWS]"

# the subcommands in Python, by the table of their package: words, module, packages, former names, status, purpose
python_table() {
    cat -- "$python/crystal_nets/commands.tsv" 2>/dev/null
}

newline='
'
tab='	'

# whether a word begins a subcommand in Python
is_of_python() {
    case $1 in
    '' | *[!a-z]*) return 1 ;;
    esac
    table=$(python_table)
    case $newline$table in
    *"$newline$1$tab"* | *"$newline$1 "*) return 0 ;;
    esac
    return 1
}

# Runs a subcommand in Python, where the words begin with one or ask for its help; other words go on.
hand_to_python() {
    if [ "${1:-}" = help ] && is_of_python "${2:-}"; then
        shift
        set -- "$@" --help
    fi
    is_of_python "${1:-}" || return 0
    command -v python3 >/dev/null || {
        echo "net_tool: python3 is missing, which $1 is written in; apt-get install python3" >&2
        exit 1
    }
    interpreter=/usr/bin/python3 # for which Debian's packages are
    [ -x "$interpreter" ] || interpreter=python3
    PYTHONPATH=$python${PYTHONPATH:+:$PYTHONPATH}
    export PYTHONPATH
    exec "$interpreter" -m crystal_nets "$@"
}

# the positional words of a command line, up to two, and the archive: an option is --archive, --name or --cell, with its
# value
positional_words() {
    command_given='' file_given='' archive_given=''
    while [ $# -gt 0 ]; do
        case $1 in
        --archive) archive_given=${2-} ;;
        --archive=*) archive_given=${1#*=} ;;
        esac
        case $1 in
        --archive | --name | --cell) [ $# -gt 1 ] && shift ;;
        --archive=* | --name=* | --cell=*) ;;
        --)
            [ -n "$command_given" ] || { [ $# -gt 1 ] && command_given=$2 && shift; }
            [ $# -gt 1 ] && [ -z "$file_given" ] && file_given=$2
            return 0
            ;;
        *)
            if [ -z "$command_given" ]; then
                command_given=$1
            elif [ -z "$file_given" ]; then
                file_given=$1
            fi
            ;;
        esac
        shift
    done
}

is_command() {
    case $1 in
    '' | *[!a-z]*) return 1 ;;
    esac
    case "
$command_table" in
    *"
$1|"*) ;;
    *) return 1 ;;
    esac
}

# ends with the usage line and 2 where the words name no command
want_command() {
    positional_words "$@"
    is_command "$command_given" || {
        echo "$usage"
        tell_fault "$@"
        exit 2
    }
}

# Ends with 2 if the arguments have a fault, and with 3 if a file cannot be read: nobody waits for a proof to be told so.
want_words() {
    positional_words "$@"
    [ -z "$(fault_of_words "$@")" ] || {
        echo "$usage"
        tell_fault "$@"
        exit 2
    }
    ! unreadable_file >/dev/null || {
        explain 3
        exit 3
    }
}

# says what is wrong with the arguments, if that is found, and where help is
tell_fault() {
    more="'net_tool help' lists the commands"
    ! is_command "$command_given" || more="'net_tool help $command_given' says more"
    reason=$(fault_of_words "$@")
    printf '%s\n' "net_tool: ${reason:+$reason; }$more" >&2
}

# The first fault of the words of a command line, by what docs/FORMATS.md says of arguments; nothing where none is found.
fault_of_words() {
    if [ -z "$command_given" ]; then
        return
    elif ! is_command "$command_given"; then
        near=
        case $command_given in
        *[!a-z_]*) ;;
        *) near=$(nearest_command "$command_given") ;;
        esac
        told="there is no command $(quoted "$command_given")${near:+; the nearest is $near}"
        [ ! -e "$command_given" ] || told="$(quoted "$command_given") is a file, and a command stands before it, as identify"
        printf '%s\n' "$told"
        return
    fi
    form=" $(form_of "$command_given") " options=' ' positional=0 second='' cell=''
    while [ $# -gt 0 ] && [ "$1" != -- ]; do
        case $1 in
        --archive | --name | --cell)
            case ${2-} in
            '' | -?*) echo "$1 needs a value; one that begins with - is given as $1=VALUE" && return ;;
            esac
            fault_of_option "$1" "$2" && return
            shift
            ;;
        --archive=* | --name=* | --cell=*) fault_of_option "${1%%=*}" "${1#*=}" && return ;;
        -?*) printf '%s\n' "unknown option $(quoted "$1")" && return ;;
        *) fault_of_positional "$1" && return ;;
        esac
        shift
    done
    [ $# -eq 0 ] || shift
    for word in "$@"; do
        fault_of_positional "$word" && return
    done
    fault_of_all || :
}

# tells what is wrong with an option and its value, and fails where nothing is
fault_of_option() {
    case $form in
    *" $1 "* | *"[$1 "*) ;;
    *) echo "$command_given takes no $1" && return ;;
    esac
    case $options in
    *" $1 "*) echo "$1 is given twice" && return ;;
    esac
    [ -n "$2" ] || { echo "the value of $1 is empty" && return; }
    options="$options$1 "
    [ "$1" != --cell ] || cell=$2
    return 1
}

# tells what is wrong with a positional word, and fails where nothing is
fault_of_positional() {
    [ -n "$1" ] || { echo "an argument is empty" && return; }
    positional=$((positional + 1))
    case $positional in
    1) return 1 ;;
    2) second=$1 ;;
    esac
    case $positional$form in
    '2 '*'[FILE]'* | '2 N ') return 1 ;;
    *'[FILE]'*) printf '%s\n' "$command_given takes one FILE; $(quoted "$1") is one too many" ;;
    *) printf '%s\n' "$command_given takes no argument $(quoted "$1")" ;;
    esac
}

# tells what is wrong with all words together, and fails where nothing is
fault_of_all() {
    for option in --archive --cell; do
        case $form in
        *" $option "*) ;;
        *) continue ;;
        esac
        case $options in
        *" $option "*) ;;
        *) echo "$command_given needs $option" && return ;;
        esac
    done
    case $form$second in
    ' N ') echo "$command_given needs N, from 1 to 4096" ;;
    ' N '*) printf '%s\n' "N must be from 1 to 4096, and is $(quoted "$second")" ;;
    *)
        if [ -n "$cell" ] && ! is_cell "$cell"; then
            printf '%s\n' "ROWS must be 4 or 9 whole numbers from -500 to 500 with commas, and is $(quoted "$cell")"
        elif [ "$archive_given" = - ] && [ "${second:--}" = - ]; then
            echo "FILE and the archive cannot both be standard input"
        else
            return 1
        fi
        ;;
    esac
}

# whether a text is 4 or 9 whole numbers with commas, as --cell takes them
is_cell() {
    number='(0|-?([1-9][0-9]?|[1-4][0-9][0-9]|500))'
    printf '%s\n' "$1" | LC_ALL=C grep -q -x -E "$number(,$number){3}(,$number,$number,$number,$number,$number)?"
}

all_commands() {
    echo "usage: net_tool COMMAND .."
    echo
    echo "Structures and nets, in Python (tested, not proved):"
    python_table | while IFS='	' read -r name _; do
        purpose=$(python_table | sed -n "s/^$name	.*	//p")
        printf '  %-16s  %s\n' "$name" "$purpose"
    done
    echo
    echo "The program, which is proved; FILE has blocks PERIODIC_GRAPH, and is standard input if absent or -:"
    while IFS='|' read -r command form does; do
        printf '  %-41s  %s\n' "$command $form" "$does"
    done <<TABLE
$command_table
TABLE
    cat <<'TEXT'

`net_tool help COMMAND` says more of one command, `net_tool --version` which program this is.
TEXT
    echo "examples: net_tool names $(quoted "${archives%/archives}/examples/quartz.cif")"
    echo "          net_tool identify $(quoted "${archives%/archives}/examples/mystery.cgd") --archive $(quoted "$archives/common.archive")"
}

# all commands, one in a line
list_commands() {
    python_table | cut -f 1
    printf '%s\n' "$command_table" | cut -d '|' -f 1
}

# the command whose word is most like this one, by Python's difflib; nothing if none is near, or python3 is not there
nearest_command() {
    command -v python3 >/dev/null || return 0
    list_commands | cut -d ' ' -f 1 | python3 -S -c 'import difflib, sys
print(*difflib.get_close_matches(sys.argv[1], sys.stdin.read().split(), 1))' "$1"
}

# what a command takes, by its word
form_of() {
    while IFS='|' read -r command form does; do
        [ "$command" != "$1" ] || echo "$form"
    done <<TABLE
$command_table
TABLE
}

# What is said of one command: its usage, what it does, its statuses and two examples, as the helps in Python have them.
one_command() {
    printf 'usage: net_tool %s %s\n\n' "$1" "$(form_of "$1")"
    purpose_of "$1"
    manual="man net_tool"
    [ ! -f "${top:-}/docs/man/net_tool.1" ] || manual="man -l $(quoted "$top/docs/man/net_tool.1")"
    printf '\nexit status: %s; 2 usage; 3 to 11: see "EXIT STATUS" of %s.\n' \
        "0 all nets, entries or maps are accepted; 1 some are not" "$manual"
    examples_of "$1"
}

# what a command does, in a sentence or two
purpose_of() {
    case $1 in
    check) echo "Whether each net is connected: 'connected', or numbers by which anyone can test why it is not." ;;
    place) echo "Where the vertices of each net stand: the common denominator D0, and each vertex in units of 1/D0." ;;
    key) echo "Of each net its key. Two nets have equal keys if and only if they are isomorphic." ;;
    identify) echo "All that is known of each net: placement, primitive graph, key, coordination sequences, and its names
in the archive." ;;
    components) echo "The components of each net, as of interpenetrating frameworks. 'net_tool names --components' names them." ;;
    symmetry) echo "All symmetries of each net in its primitive cell, as operations, and its kinds of vertices and of edges.
A structure may have fewer symmetries than its net." ;;
    cover) echo "The nets on a larger cell: ROWS are its edges in the given cell. 2,0,0,1 is two cells of a layer along a." ;;
    add) echo "The archive with these nets after its own, on standard output; write it to another file than PATH.
If a net is refused nothing is added; 'net_tool archive make' takes the nets that are accepted." ;;
    duplicates) echo "How many entries the archive has, and those whose nets are isomorphic." ;;
    migrate) echo "The archive in format 2, with coordination sequences beside the keys." ;;
    union) echo "Both archives in one. FILE is an archive, or key lines of an .arc file; 'net_tool add' takes blocks." ;;
    same) echo "A map from the first net to each other one that is the same, for 'net_tool verify' to check." ;;
    verify) echo "Whether each map carries the one net to the other, with no trust in keys." ;;
    workload) echo "Makes N nets, 1 to 4,096, and says how many have a key and how many keys differ." ;;
    esac
}

# two examples of a command, as they are typed in the folder of the repository
examples_of() {
    common="--archive archives/common.archive" quartz="net_tool convert examples/quartz.cif | net_tool $1"
    case $1 in
    check | place | key | symmetry) set -- "net_tool $1 examples/dia.cgd" "$quartz" ;;
    identify) set -- "net_tool $1 examples/mystery.cgd $common" "$quartz $common" ;;
    components) set -- "net_tool $1 examples/interpenetrating.cgd" "$quartz" ;;
    cover) set -- "net_tool $1 examples/sql.cgd --cell 2,0,0,1" \
        "net_tool $1 examples/dia.cgd --cell=-1,1,1,1,-1,1,1,1,-1" ;;
    add) set -- "net_tool $1 examples/dia.cgd --name diamond > mine.archive" \
        "net_tool $1 examples/srs.cgd --archive mine.archive > longer.archive" ;;
    duplicates | migrate) set -- "net_tool $1 $common" "net_tool $1 --archive archives/layers.archive" ;;
    union) set -- "net_tool $1 archives/layers.archive $common > both.archive" \
        "net_tool $1 archives/zeolites.archive $common > both.archive" ;;
    same) set -- "net_tool $1 examples/twice.cgd > twice.maps" "net_tool $1 examples/twice.cgd | net_tool verify" ;;
    verify) set -- "net_tool $1 examples/cubic.maps" "net_tool $1 examples/quartz.maps" ;;
    workload) set -- "net_tool $1 1" "net_tool $1 100" ;;
    esac
    printf 'examples: %s\n          %s\n' "$1" "$2"
}

# answers help and --version, and ends; other words go on to the program
answer_help() {
    case ${1:-} in
    -h | --help) all_commands && exit 0 ;;
    -V | --version) version && exit 0 ;;
    --commands) list_commands && exit 0 ;; # for the completion of bash
    help)
        [ $# -gt 1 ] || { all_commands && exit 0; }
        is_command "$2" && [ $# -eq 2 ] && one_command "$2" && exit 0
        reason="there is no command $(quoted "$2")"
        ! is_command "$2" || reason="help takes one command"
        printf '%s\n' "net_tool: $reason; 'net_tool help' lists them" >&2
        exit 2
        ;;
    esac
    positional_words "$@"
    is_command "$command_given" || return 0
    for word in "$@"; do
        case $word in
        --) break ;;
        -h | --help) one_command "$command_given" && exit 0 ;; # no word that the program takes, and no value of an option
        esac
    done
}

# Why the program ended without a word. Who reads a pipe and closes it, as head does, has what he wants.
explain() {
    case $1 in
    3) printf '%s\n' "net_tool: $(unreadable_file || echo "a file or an archive cannot be read, or is not there")" >&2 ;;
    4) [ -p /dev/stdout ] || [ -S /dev/stdout ] ||
        echo "net_tool: the output cannot be written; what was written is its beginning" >&2 ;;
    5) hint_of_no_archive ;;
    6) echo "net_tool: a file or an archive has more than 16,777,216 bytes; 'net_tool table' takes files of any size" >&2 ;;
    7) echo "net_tool: memory was refused" >&2 ;;
    8) echo "net_tool: the file has more than 4,096 blocks or items; 'net_tool table' takes any number" >&2 ;;
    20) echo "net_tool: the arguments cannot be read, as where a file's name is not UTF-8; hand that file on by <" >&2 ;;
    126 | 127) echo "net_tool: the program cannot be run: $program" >&2 ;;
    132) echo "net_tool: this processor lacks instructions that the program was built with (x86-64-v2)" >&2 ;;
    esac
}

# tells which file cannot be read, and why; it fails where that is not seen
unreadable_file() {
    fault_of_file "$archive_given" "'net_tool names' takes a folder of archives" ||
        fault_of_file "$file_given" "'net_tool table' takes a folder"
}

fault_of_file() {
    case $1 in
    '' | -) return 1 ;;
    esac
    if [ -d "$1" ]; then
        told="Is a directory; $2"
    elif [ ! -e "$1" ]; then
        told="No such file or directory"
    elif [ ! -r "$1" ]; then
        told="Permission denied"
    else
        return 1
    fi
    printf '%s\n' "$(quoted "$1"): $told"
}

# says what to do with a file that stands in the place of an archive
hint_of_no_archive() {
    [ -f "$archive_given" ] && ! has_line '^net_archive ' "$archive_given" || return 0
    told="is no archive"
    if has_line '^[[:blank:]]*PERIODIC_GRAPH' "$archive_given"; then
        told="has blocks, and is no archive; 'net_tool add FILE' makes one of it"
    elif has_line '^[[:blank:]]*(key|CRYSTAL|NET|TILING)([[:blank:]]|$)' "$archive_given"; then
        told="is a file of nets, and no archive; 'net_tool archive make' makes one of it"
    fi
    printf '%s\n' "net_tool: $(quoted "$archive_given") $told" >&2
}

has_line() {
    LC_ALL=C grep -a -q -i -E "$1" -- "$2" 2>/dev/null
}

# a word as a shell reads it, in quotes where it needs them
quoted() {
    case $1 in
    '' | *[!A-Za-z0-9_./+:@%,-]*) printf '%s\n' "'$(printf '%s\n' "$1" | sed "s/'/'\\\\''/g")'" ;;
    *) printf '%s\n' "$1" ;;
    esac
}

# says why nets have no names, where no archive was asked
hint_of_archive() {
    [ "$command_given" = identify ] && [ -z "$archive_given" ] || return 0
    printf '%s\n' "net_tool: no archive was asked, so no net has a name; try --archive $(quoted "$archives/common.archive")" >&2
}

# says that a key goes on in a line that union does not read
hint_of_keys() {
    [ "$command_given" = union ] && has_line '^[[:blank:]]*[-+]?[0-9]' "$file" || return 0
    printf '%s\n' "net_tool: a number begins a line of ${file_given:-standard input}: union reads no key further than its line; 'net_tool convert' says which go on" >&2
}

# says where a line opens a block before the END of the one before, which the program reads as one block
hint_of_end() {
    lines=$(LC_ALL=C awk '{
        gsub(/[\r\v\f]/, " ")
        sub(/#.*/, "")
        word = toupper($1)
        if (word == "END") opening = 0
        else if (opening && NF == 1 && word ~ /^(PERIODIC_GRAPH|CRYSTAL|NET|TILING)$/) { print opening, NR; exit }
        else if (!opening && word != "") opening = NR
    }' "$file" 2>/dev/null) && [ -n "$lines" ] || return 0
    echo "net_tool: line ${lines#* } opens a block before the END of the one of line ${lines% *}: both are read as one" >&2
}

# Keeps what union is given by a pipe, so that it can be looked at afterwards: of a text without key lines it gives the
# archive as it was, and no word. The file is gone with its last reader.
keep_pipe() {
    case $command_given,$file_given in
    union, | union,-) [ -p /dev/stdin ] || return 0 ;;
    *) return 0 ;;
    esac
    kept=$(mktemp 2>/dev/null) || return 0
    exec 3>"$kept"
    exec 4<"$kept"
    rm -f -- "$kept"
    bound head -c 16777217 >&3 || {
        echo "net_tool: standard input cannot be kept in a file; hand it on as a file" >&2
        exit 3
    }
    exec 3>&- <&4 4<&-
}

# Says what to do with a file that has no net that the command reads. A file is only looked at where it can be read
# again; of a pipe nothing is said, but for union.
hint() {
    case $command_given in
    check | place | key | identify | components | symmetry | cover | add | same) wants='^[[:blank:]]*PERIODIC_GRAPH' ;;
    union) wants='^([[:blank:]]*(key|id)[[:blank:]]|net_archive )' ;;
    *) return 0 ;;
    esac
    file=$file_given
    case $file in
    '' | -) file=/dev/stdin ;;
    esac
    if [ ! -f "$file" ] || has_line "$wants" "$file"; then
        [ ! -f "$file" ] || hint_of_keys
        [ ! -f "$file" ] || [ "$1" = 0 ] || hint_of_end
        hint_of_archive
        return 0
    fi
    case $(LC_ALL=C head -c 2 -- "$file" | od -An -tx1) in
    ' ff fe' | ' fe ff') is_utf16=1 ;;
    *) is_utf16= ;;
    esac
    if [ -n "$is_utf16" ]; then
        told="it is in UTF-16; 'net_tool convert' reads it, and 'iconv -f UTF-16 -t UTF-8' makes a text that is read"
    elif has_line '^[[:blank:]]*(data_|_cell_length_a|loop_)' "$file"; then
        told="it looks like a CIF; 'net_tool names' names its nets"
    elif has_line '^[[:blank:]]*PERIODIC_GRAPH' "$file"; then
        told="it has no key lines, but blocks PERIODIC_GRAPH, which union does not take; add does"
    elif has_line '^[[:blank:]]*(CRYSTAL|NET|TILING)([[:blank:]]|$)' "$file"; then
        told="its blocks are of other kinds, as CRYSTAL; 'net_tool convert' makes nets of them"
    elif has_line '^net_archive ' "$file"; then
        told="it is an archive; 'net_tool convert' writes its nets as blocks"
    elif has_line '^net_maps ' "$file"; then
        told="it is a text of maps; verify reads it"
    elif has_line '^[[:blank:]]*key[[:blank:]]' "$file"; then
        told="it has key lines; union reads them, and 'net_tool convert' makes nets of them"
    else
        told="it has no block PERIODIC_GRAPH; if it is a structure or another .cgd file, see 'net_tool convert'"
    fi
    printf '%s\n' "net_tool: no net was read from ${file_given:-standard input}: $told" >&2
}

# whether a command can be made to end with this shell
can_bind() {
    setpriv --pdeathsig KILL sh -c : 2>/dev/null
}

# runs a command that is told to end where this shell does, where that can be
bound() {
    if can_bind; then
        setpriv --pdeathsig TERM -- "$@"
    else
        "$@"
    fi
}

# Runs the program, explains its status, and ends with it. The program ends as soon as this shell does, by whatever
# signal; without setpriv, of util-linux, it takes the place of this shell, and nothing is said of its status.
run_explained() {
    positional_words "$@"
    can_bind || exec "$program" "$@"
    keep_pipe
    setpriv --pdeathsig KILL -- "$program" "$@"
    status=$?
    explain $status
    case $status in
    0 | 1) hint $status ;;
    2) tell_fault "$@" ;;
    esac
    exit $status
}

# the crates that the program stands on, itself first, by crates.txt, where each stands after those below it
crates_of_program() {
    upwards=
    while read -r line; do
        upwards="$line
$upwards"
    done <crates.txt
    needed=' net_tool '
    while IFS=': ' read -r crate below; do
        case $needed in
        *" ${crate:-none at all} "*) needed="$needed$below " && echo "$crate" ;;
        esac
    done <<CRATES
$upwards
CRATES
}

# the files below a folder, one a line
files_below() {
    for path in "$1"/*; do
        if [ -d "$path" ]; then
            files_below "$path"
        elif [ -f "$path" ]; then
            echo "$path"
        fi
    done
}

# A sum of all that the program is made of, and of nothing else: the sources, definitions and proofs of the crates that
# it stands on, crates.txt and TOOLCHAIN.
sum_of_sources() {
    (
        cd "$top" && set -e && LC_ALL=C && export LC_ALL
        files=$(for crate in $(crates_of_program); do
            for folder in src specs proofs; do
                files_below "crates/$crate/$folder"
            done
        done)
        IFS='
'
        # shellcheck disable=SC2046
        set -- $(printf '%s\n' "$files" | sort)
        sha256sum crates.txt TOOLCHAIN "$@" | sha256sum | cut -d ' ' -f 1
    ) 2>/dev/null
}

# the version that stands here: that of the next release, or of the one that was made last
version_of_sources() {
    sed -n 's/^__version__ = "\([^"]*\)".*/\1/p' "$top/python/crystal_nets/__init__.py"
}

# The commit of the repository, and whether something was changed since, or the one that a release is of.
commit_of_sources() {
    if [ -n "${COMMIT_OF_RELEASE:-}" ]; then
        echo "$COMMIT_OF_RELEASE"
    elif commit=$(git -C "$top" rev-parse --short=12 HEAD 2>/dev/null); then
        changed=$(git -C "$top" status --porcelain --untracked-files=no 2>/dev/null)
        echo "$commit${changed:+, with changes}"
    else
        echo "not known, since this folder is no git checkout"
    fi
}

# what `net_tool --version` tells of a program that is installed
version_of_program() {
    echo "net_tool $(version_of_sources), commit $(commit_of_sources)"
    echo "toolchain: $(cat "$top/TOOLCHAIN")"
    made_of=$(sed -n 1p "$1.sum" 2>/dev/null) || :
    if [ -z "$made_of" ]; then
        echo "the program was given to install.sh; of which sources it was made is not known"
    elif [ "$made_of" != "$(sum_of_sources)" ]; then
        echo "the program was made of other sources than stand there, those of the sum $made_of"
    else
        echo "the program was made of these sources; their sum is $made_of"
    fi
}
