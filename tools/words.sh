# What is wrong with the arguments of a call of ./fractal, in a sentence. The launcher reads this file if it exists, and
# provides its table and what finds rows in it. Without it the program judges the arguments, and says less.

# The names of all rows of a kind, which is a pattern of sed, as `a, b or c`.
names_of() {
    table | sed -n "/^$1|/ { s/^[^|]*|\([^|]*\)|.*/\1/; p; }" | awk '
        { names[NR] = $0 }
        END {
            for (place = 1; place <= NR; place++)
                printf "%s%s", names[place], place == NR ? "" : place == NR - 1 ? " or " : ", "
        }'
}

# An argument as a sentence shows it: without what isn't printed, and not too long.
shown() {
    [ -n "$1" ] || { printf empty && return; }
    start=$(printf %s "$1" | tr -c '\040-\176\200-\377' '?' | cut -c 1-60)
    [ ${#1} -le 60 ] || start=$start...
    printf %s "$start"
}

# The end of a sentence on an unknown name: a question for the nearest names of some kinds of rows, or a full stop. Each
# name has a mark before it, and is at most three letters away, and at most two fifths of its length.
near_of() {
    table | LC_ALL=C awk -F'|' -v word="$1" -v kinds=" $2 " -v mark="${3-}" '
        function least(one, other) { return one < other ? one : other }
        function distance(one, other, row, column, above, left, corner) {
            for (column = 0; column <= length(other); column++) cost[column] = column
            for (row = 1; row <= length(one); row++) {
                corner = cost[0]
                cost[0] = row
                for (column = 1; column <= length(other); column++) {
                    above = cost[column]
                    left = corner + (substr(one, row, 1) != substr(other, column, 1))
                    cost[column] = least(least(above + 1, cost[column - 1] + 1), left)
                    corner = above
                }
            }
            return cost[length(other)]
        }
        index(kinds, " " $1 " ") && length(word) < 40 && !seen[$2]++ {
            far = distance(word, $2)
            if (far > 3 || 5 * far > 2 * length($2)) next
            if (names == "" || far < nearest) { names = mark $2; nearest = far }
            else if (far == nearest) names = names " or " mark $2
        }
        END { printf "%s", names == "" ? "." : "; did you mean " names "?" }'
}

# The tools that have an option of their own with this name, as `a, b`.
tools_with() {
    grep -l "^  --$1[ ,]" "$home"/tools/yotarimu/commands/*.py 2>/dev/null |
        sed 's,.*/,,; s,\.py$,,' | sed -n 'H; $ { x; s/\n//; s/\n/, /g; p; }'
}

# A word as a line to type has it, but for what isn't printed.
quoted() {
    typed=$(printf %s "$1" | tr -c '\040-\176\200-\377' '?' | cut -c 1-200)
    case $typed in
        '' | *[!A-Za-z0-9_./:@%+,=-]*) printf "'%s'" "$(printf %s "$typed" | sed "s/'/'\\\\''/g")" ;;
        *) printf %s "$typed" ;;
    esac
}

# What is wrong with words, in a sentence; nothing where the program takes them, as crates/command_line/specs says.
# A try compares the two over random words.
fault_of_words() {
    LC_ALL=C
    command=$1
    if [ "$rows_of" = mode ]; then
        fault_of_watch "$@"
        return
    fi
    line=$command
    row command "$command" || { fault_of_command "$@" && return; }
    shift
    fault_of_further "$@"
}

# The same of words behind `watch`. An option of `watch` alone may stand anywhere among them; it is put behind them.
fault_of_watch() {
    count=$# apart='' waiting='' given=' '
    while [ $count -gt 0 ]; do
        word=$1 count=$((count - 1))
        shift
        if [ -n "$waiting" ]; then
            fault_of_text "$waiting" "$word" && return
            apart="$apart --$waiting $word" waiting=''
        elif is_apart "$word"; then
            waiting=${word#--}
            fault_of_second "$waiting" && return
            given="$given$waiting "
        else
            set -- "$@" "$word"
        fi
    done
    if [ -n "$waiting" ]; then
        fault_of_missing "$waiting"
        return
    fi
    # shellcheck disable=SC2086 # values of such options are words of the table
    fault_of_parts "$@" $apart
}

# The same where such options stand last.
fault_of_parts() {
    line=watch command=${1-}
    case $command in
        memory)
            line="$line memory" command=${2-}
            shift
            ;;
        views)
            fault_of_number views "$command" "${2-}" && return
            line="$line views $2" command=${3-}
            shift 2
            ;;
        counts)
            line="$line counts" command=${2-}
            shift
            if [ "$command" = every ]; then
                fault_of_number every "$line every" "${2-}" && return
                line="$line every $2" command=${3-}
                shift 2
            fi
            ;;
    esac
    if is_apart "$command"; then command=''; fi
    row mode "$command" || { fault_of_mode && return; }
    line="$line $command"
    shift
    if [ "$command" = lockstep ]; then
        for name in ROUNDS SEED; do
            fault_of_number $name "$line" "${1-}" && return
            line="$line $1"
            shift
        done
        if [ "${1-}" = starved ]; then
            fault_of_number starved "$line starved" "${2-}" && return
            line="$line starved $2"
            shift 2
        fi
    fi
    fault_of_further "$@"
}

# Whether a word is the name of an option of `watch` alone.
is_apart() {
    case $1 in
        --?*) row mode-option "${1#--}" ;;
        *) return 1 ;;
    esac
}

# The same of options and of what stands between them.
fault_of_further() {
    given=' ' waiting='' kind='' count=0
    for word; do
        if [ -n "$waiting" ]; then
            fault_of_text "$waiting" "$word" && return
            waiting=''
            continue
        fi
        case $word in
            --?*)
                name=${word#--}
                name=${name%%=*}
                fault_of_name "$name" && return
                given="$given$name "
                case $word in
                    *=*) fault_of_value "$name" "${word#*=}" && return ;;
                    *) waiting=$name ;;
                esac
                ;;
            -?*) fault_of_dashes "$word" && return ;;
            *)
                count=$((count + 1))
                [ "$command" = load ] && fault_of_place $count "$word" && return
                ;;
        esac
    done
    if [ -n "$waiting" ]; then
        fault_of_missing "$waiting"
    elif [ "$command" = load ]; then
        [ $count -eq 3 ] || put "load takes KIND SEED SIZE, as in: $(quoted "$0") load walk 7 100"
    elif [ $count -gt 0 ]; then
        fault_of_files "$@"
    fi
}

# Each of these writes what is wrong, or has status 1. The first is of a first argument that isn't a command.
fault_of_command() {
    if [ $# -gt 1 ] && row own "$1"; then
        put "$1 takes no $(shown "$2"); $(quoted "$0") help $1 describes it."
    elif [ -f "$1" ]; then
        put "$(shown "$1") is a file; try $(quoted "$0") run < $(quoted "$1")"
    else
        near=$(near_of "$1" 'command own tool')
        [ "$near" != . ] || near="; $(quoted "$0") help lists them."
        put "unknown command $(shown "$1")$near"
    fi
}

fault_of_mode() {
    if [ -f "$command" ]; then
        put "$(shown "$command") is a file; try $(quoted "$0") watch least < $(quoted "$command")"
    else
        near=$(near_of "$command" mode)
        [ "$near" != . ] || near=${command:+, not $(shown "$command")}.
        put "$line needs a mode: $(names_of mode)$near"
    fi
}

# The number that a name stands for, behind these arguments.
fault_of_number() {
    values_of number "$1"
    is_allowed "$values" "$3" && return 1
    put "$2 needs a number from $(told_values "$values")${3:+, not $(shown "$3")}."
}

# The name of an option.
fault_of_name() {
    fault_of_second "$1" && return
    option_row "$1" && return 1
    kinds=option others=''
    [ "$rows_of" != mode ] || kinds='option mode-option'
    near=$(near_of "$1" "$kinds" --)
    case $1 in
        *[!a-z-]*) ;;
        *) others=$(tools_with "$1") ;;
    esac
    if [ "$1" = version ]; then
        put "--version stands alone: $(quoted "$0") --version"
    elif row mode-option "$1"; then
        put "--$1 is an option of ./fractal watch, not of $command."
    elif [ "$near" = . ] && [ -n "$others" ]; then
        put "--$1 is an option of $others, not of $command."
    else
        [ "$near" != . ] || near="; $(quoted "$0") help $command lists them."
        put "unknown option $(shown "--$1")$near"
    fi
}

fault_of_second() {
    case $given in
        *" $1 "*) put "--$1 is given twice." ;;
        *) return 1 ;;
    esac
}

fault_of_missing() {
    values_of option "$1"
    put "--$1 needs a value: $(told_values "$values")."
}

# The text of an option as an argument of its own.
fault_of_text() {
    case $2 in
        -?*)
            values_of option "$1"
            put "--$1 needs a value: $(told_values "$values"); $(shown "$2") begins with a dash."
            ;;
        *) fault_of_value "$1" "$2" ;;
    esac
}

fault_of_value() {
    values_of option "$1"
    is_allowed "$values" "$2" && return 1
    case $values in
        [a-z]*) put "--$1 must be one of $(told_values "$values"), not $(shown "$2")." ;;
        *) put "--$1 must be $(told_values "$values"), not $(shown "$2")." ;;
    esac
}

fault_of_dashes() {
    case $1 in
        --) put "-- isn't known; options have a name, as in --tiles 2." ;;
        *) put "unknown option $(shown "$1"); options have two dashes, as in --tiles 2." ;;
    esac
}

# A further argument of load.
fault_of_place() {
    case $1 in
        1)
            row kind "$2" && kind=$2 && return 1
            put "load generates $(names_of kind), not $(shown "$2")."
            ;;
        2)
            values_of seed any
            is_allowed "$values" "$2" && return 1
            put "the seed must be $(told_values "$values"), not $(shown "$2")."
            ;;
        3)
            values_of kind "$kind"
            is_allowed "$values" "$2" && return 1
            put "the size of a $kind must be $(told_values "$values"), not $(shown "$2")."
            ;;
        *) put "load takes KIND SEED SIZE, and $(shown "$2") is one argument too many." ;;
    esac
}

# File arguments of a command that reads standard input, with the line to type.
fault_of_files() {
    row "$rows_of" "$command"
    input=${found#*|}
    input=${input%%|*}
    line="$(quoted "$0") $line" files='' waiting=''
    for word; do
        case $waiting,$word in
            text,*) line="$line $(quoted "$word")" waiting='' ;;
            ,--*=*) line="$line $(quoted "$word")" ;;
            ,--*) line="$line $word" waiting=text ;;
            *) files="$files $(quoted "$word")" ;;
        esac
    done
    case $input in
        *' followed by '*)
            [ $count -eq 2 ] || files=" IMAGE $(printf %s "${input##* }" | tr '[:lower:]' '[:upper:]')"
            line="cat$files | $line"
            ;;
        *)
            [ $count -eq 1 ] || files=' IMAGE'
            line="$line <$files"
            ;;
    esac
    put "$command takes no file argument, since it reads $input from standard input: $line"
}

# Whether a word is a number that the values of a row allow: 1 to 10 digits, leading zeros too. Where the values are
# words, it is to be one of these.
is_allowed() {
    case $1 in
        [a-z]*)
            case $2 in
                '' | *,*) return 1 ;;
                *) ;;
            esac
            case ,$1, in
                *",$2,"*) return ;;
                *) return 1 ;;
            esac
            ;;
        *) ;;
    esac
    case $2 in
        '' | *[!0-9]* | ???????????*) return 1 ;;
        *) ;;
    esac
    case $1 in
        *..*) [ "$2" -ge "${1%..*}" ] && [ "$2" -le "${1#*..}" ] ;;
        *)
            for value in $(printf %s "$1" | tr , ' '); do
                [ "$2" -ne "$value" ] || return 0
            done
            return 1
            ;;
    esac
}
