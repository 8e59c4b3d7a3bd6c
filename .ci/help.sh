# The help of ./ca, ./try and ./rules: how a command is called, and what a fault means. Each of them sets `me` to its name and
# `top` to the checkout, and sources this. The installed ca and rules source it too. They also set `pages` to the folder of the
# installed pages, `shown` to the name of this folder, and `before` to what stands before the names of the two commands: nothing.
before=${before-./}
pages=${pages-$top/docs}
shown=${shown-docs}
commands_page=$pages/COMMANDS.md
# A line of the page about a command, as sed and grep read it.
line_of="    ${before//./\\.}ca"

# explains: whether a script explains faults: only at a terminal, unless CA_EXPLAIN is yes or no.
explains() {
    case ${CA_EXPLAIN-} in
    yes) return 0 ;;
    no) return 1 ;;
    *) [ -t 2 ] ;;
    esac
}

# asks_help WORD..: whether one of the words is --help, or the first is help or -h.
asks_help() {
    local word
    case ${1-} in help | -h) return 0 ;; esac
    for word; do [ "$word" != --help ] || return 0; done
    return 1
}

# plain: reads Markdown, and leaves of each link its words.
plain() { sed -E 's/\[([^]]*)\]\([^)]*\)/\1/g'; }

# forms: a line for each command, how it is called and what it does.
forms() { sed -n "/^## All forms\$/,/^## R,/s#^$line_of#&#p" "$commands_page"; }

# form COMMAND: its line of these.
form() { forms | sed -n "\\#^$line_of $1 #p"; }

# is_command WORD
is_command() { [[ $1 =~ ^[a-z]+$ ]] && [ -n "$(form "$1")" ]; }

# operands COMMAND: the operands after it, in [..] if they may be missing.
operands() { form "$1" | sed -E "s#^$line_of [a-z]+ ##; s/  .*//; s/<.*//"; }

# may_be COMMAND OPERAND: what the operand may be.
may_be() {
    case $2 in
    R) echo "a rule: the number of an elementary rule, 0 to 255, or K:M:O:t and its table, such as 2:3:-1:t01110110, or K:M:O:w and" \
        "its number, such as 2:3:-1:w110" ;;
    '[WEIGHTS]') echo "one word: a weight from 0 to 255 for each letter, with one comma between, such as 0,1" ;;
    K) echo "the number of states, from 2 to 16" ;;
    M) if [ "$1" = widen ]; then echo "a width of one digit, from that of R to 5"; else echo "the width, from 2 to 5"; fi ;;
    FROM) echo "the number of the first rule, of at most 39 digits" ;;
    COUNT) echo "the number of rules, from 1 to 4096" ;;
    SEED) echo "a number below 2^64, of at most 20 digits" ;;
    N) echo "a number of cells of one or two digits, with a - before it for cells to the left" ;;
    DIGITS) echo "the new names of the letters 0, 1, .. in one word of 1 to 16 hexadecimal digits, such as 10" ;;
    'L|M|R') echo "one word in quotes with two bars, such as '0|1|0': left period, middle and right period, in hexadecimal digits" ;;
    PROPERTY) echo "surjective, injective (reversible), right, left, open or conserving" ;;
    BEGIN) echo "the beginning of a table: K:M:O:t and digits, as many as wanted, such as 2:3:-1:t" ;;
    esac
}

# tell_operands COMMAND OPERANDS: what each of them may be, a line for each.
tell_operands() {
    local all=() one last=
    read -ra all <<<"$2"
    for one in ${all[@]+"${all[@]}"}; do
        [ "$one" = "$last" ] || echo "${one//[][]/} is $(may_be "$1" "$one")"
        last=$one
    done
}

# fits COMMAND OPERAND WORD: whether the word has the form of the operand. A rule may be any word here.
fits() {
    local LC_ALL=C weight='([01]?[0-9]{1,2}|2[0-4][0-9]|25[0-5])' padded
    case $2 in
    R | BEGIN) return 0 ;;
    '[WEIGHTS]') [[ $3 =~ ^$weight(,$weight){0,15}$ ]] ;;
    K) [[ $3 =~ ^[0-9]{1,2}$ ]] ;;
    M) [[ $3 =~ ^[0-9]{1,2}$ ]] && [ "$1 ${#3}" != 'widen 2' ] ;;
    FROM) [[ $3 =~ ^[0-9]{1,39}$ ]] ;;
    COUNT) [[ $3 =~ ^[0-9]{1,4}$ ]] && ((10#$3 >= 1 && 10#$3 <= 4096)) ;;
    SEED) padded=0000000000000000000$3 && [[ $3 =~ ^[0-9]{1,20}$ && ${padded: -20} < 18446744073709551616 ]] ;;
    N) [[ $3 =~ ^-?[0-9]{1,2}$ ]] ;;
    DIGITS) [[ $3 =~ ^[0-9a-fA-F]{1,16}$ ]] ;;
    'L|M|R') [[ $3 =~ ^[0-9a-fA-F]*\|[0-9a-fA-F]*\|[0-9a-fA-F]*$ ]] ;;
    PROPERTY) [[ $3 =~ ^(surjective|injective|right|left|open|conserving)$ ]] ;;
    esac
}

# no_command WORD: says that the word is no command, and what may be meant. This comes last if all forms are shown, since these fill
# a screen.
no_command() {
    local meant= word=${1,,} said
    case $1 in
    -*) said="there are no options, and \`$1\` is no command" ;;
    *) said="there is no command \`$1\`" ;;
    esac
    case $word in
    -v | --version | version)
        echo "$said; the program has no version of its own, and CA_VERSION in ca.h is the version of its library's interface"
        return
        ;;
    rules | list | lists) echo "${before}rules PROPERTY BEGIN lists all rules of a shape" ;;
    image | picture | dot | page | site | kept | moved | degree | blocks | atlas) echo "python -m foursaspen $word is a command of the Python package ($shown/PYTHON.md)" ;;
    surjective | injective | bijective | reversible | invertible | open | closing | conserving | report) meant=decide ;;
    [0-9]*) meant=decide ;;
    '' | *[!a-z]* | ? | ??) ;;
    *) meant=$(forms | sed -n "s#^$line_of \($word[a-z]*\) .*#\1#p" | sed -n 1p) ;;
    esac
    if [ -n "$meant" ]; then
        echo "$said; is it $meant?"
        form "$meant"
    else
        forms
        echo "$said"
    fi
}

# usage_fault NAME OPERANDS WORD..: says why these words aren't right after the name, if the command has these operands;
# fails if they are.
usage_fault() {
    local name=$1 all=() least=0 one word
    read -ra all <<<"$2"
    shift 2
    for one in ${all[@]+"${all[@]}"}; do [[ $one == \[* ]] || least=$((least + 1)); done
    if [ $# -lt "$least" ] || [ $# -gt ${#all[@]} ]; then
        [[ " $*" != *' --'* ]] || echo "there are no options"
        echo "after $name comes ${all[*]:-no word}, but here ${*:-nothing}"
        [ "$name" != check ] || echo "check reads standard input: ${before}ca check < FILE"
        tell_operands "$name" "${all[*]-}"
        return 0
    fi
    for word; do
        one=${all[0]}
        all=("${all[@]:1}")
        fits "$name" "$one" "$word" && continue
        [[ $word != --* ]] || echo "there are no options"
        echo "${one//[][]/} is $(may_be "$name" "$one"), and not \`$word\`"
        return 0
    done
    return 1
}

# meaning OF FAULT: what a fault means. OF is `rule` for the text of a rule, `shape` for K, M and the numbers after them,
# `list` for a BEGIN, and the command for a cause of NotFit.
meaning() {
    case "$1 $2" in
    'rule form') echo "it must be $(may_be ca R)" ;;
    'list form') echo "it must be $(may_be rules BEGIN)" ;;
    'rule states' | 'shape states' | 'list states') echo "K, the number of states, must be 2 to 16" ;;
    'rule width' | 'shape width' | 'list width') echo "M, the width, must be 2 to 5" ;;
    'rule nodes' | 'shape nodes' | 'list nodes')
        echo "K to the power of M - 1 must be at most 16: M is at most 5 for 2 states, 3 for 3 and 4 states, and 2 for more" ;;
    'rule offset' | 'list offset') echo "the window must be within 16 cells: O must be at least -16, and O + M - 1 at most 16" ;;
    'rule kind') echo "rules of seven states or more have no numbers; give the table, K:M:O:t and its digits" ;;
    'shape kind') echo "K must be at most 6: rules of seven states or more have no numbers; sample draws them" ;;
    'list kind' | 'list number') echo "it must be the beginning of a table, K:M:O:t and digits; a number isn't one" ;;
    'rule length') echo "the table must have one digit for each window, K to the power of M digits" ;;
    'list length') echo "it must have no more digits than there are windows, K to the power of M" ;;
    'rule letter' | 'list letter') echo "each digit of the table must be less than K" ;;
    'rule number')
        echo "an elementary rule has a number from 0 to 255, another one a number less than K^(K^M)"
        echo "digits without colons are the number of an elementary rule; K:M:O:w comes before another number, such as 2:4:-1:w6000," \
            "and K:M:O:t before a table, such as 2:3:-1:t01110110 for rule 110: from 000 to 111, the reverse of Wolfram's row" ;;
    'shape number') echo "FROM + COUNT - 1, the last number, must be less than K^(K^M); that is 256 for K 2 and M 3" ;;
    'compose states' | 'same states') echo "both rules must have the same number of states" ;;
    'compose width') echo "the width of the result must be at most 5: it is the sum of both widths, minus 1" ;;
    'compose nodes') echo "M is the sum of both widths, minus 1; $(meaning rule nodes)" ;;
    'compose offset') echo "the window of the result must be within 16 cells on both sides" ;;
    'widen width') echo "M must be from the width of R to 5" ;;
    'widen nodes') meaning rule nodes ;;
    'widen offset') echo "the window must be within 16 cells: O + M - 1 must be at most 16" ;;
    'shift offset') echo "N must leave the window within 16 cells on both sides" ;;
    'permute permutation') echo "DIGITS must have each letter from 0 to K - 1 exactly once, such as 10 for two states" ;;
    'inverse twins') echo "R has no inverse, since it isn't injective: these two words, each closed to a ring, have one image" ;;
    'inverse wide') echo "R has an inverse, but its table is too large: there are more than 65,536 words of N letters, for its window N C" ;;
    'preimage tail leftempty') echo "the left period, before the first bar, must have a letter" ;;
    'preimage tail rightempty') echo "the right period, after the second bar, must have a letter" ;;
    'preimage tail long') echo "each of the three parts must have at most 1,024 letters" ;;
    'preimage tail letter') echo "each letter must be less than the number of states of R" ;;
    'decide weights' | 'certify weights' | 'brief weights')
        echo "WEIGHTS must have one number for each letter of R, such as 0,1 for two states" ;;
    'least colours') echo "R must have at most six states" ;;
    'lift states' | 'unlift states') echo "R must have at most 4 states: its letters become pairs, and there are at most 16" ;;
    'lift nodes' | 'unlift nodes') echo "R is too wide: its width must be 2 or 3 for 2 states, and 2 for 3 and 4 states" ;;
    'lift centre' | 'unlift centre') echo "the window of a cell must hold the cell itself: O must be from 1 - M to 0" ;;
    *) return 1 ;;
    esac
}

# may_follow PREFIX: what may come after the beginning of a rule's text.
may_follow() {
    local LC_ALL=C digits='a decimal digit'
    if [[ $1 =~ ^[0-9]{1,2}$ ]]; then echo "$digits, : or the end"
    elif [[ $1 =~ ^[0-9]{39}$ ]]; then echo "only the end"
    elif [[ $1 =~ ^[0-9]+$ ]]; then echo "$digits or the end"
    elif [[ $1 =~ ^[0-9]+:$ ]]; then echo "the width, $digits"
    elif [[ $1 =~ ^[0-9]+:[0-9]$ ]]; then echo "$digits or :"
    elif [[ $1 =~ ^[0-9]+:[0-9]{2}$ ]]; then echo ":"
    elif [[ $1 =~ ^[0-9]+:[0-9]+:$ ]]; then echo "the offset, - or $digits"
    elif [[ $1 =~ ^[0-9]+:[0-9]+:-$ ]]; then echo "$digits"
    elif [[ $1 =~ ^[0-9]+:[0-9]+:-?[0-9]$ ]]; then echo ": or $digits"
    elif [[ $1 =~ ^[0-9]+:[0-9]+:-?[0-9]{2}$ ]]; then echo ":"
    elif [[ $1 =~ ^[0-9]+:[0-9]+:-?[0-9]+:$ ]]; then echo "t and a table, or w and a number"
    elif [[ $1 =~ :t[0-9a-fA-F]*$ ]]; then echo "a hexadecimal digit or the end"
    elif [[ $1 =~ :w[0-9]{39}$ ]]; then echo "only the end"
    elif [[ $1 =~ :w[0-9]+$ ]]; then echo "$digits or the end"
    else echo "$digits"; fi
}

# at_place TEXT KIND PLACE: where in a rule's text the fault is, if its kind has a place.
at_place() {
    local LC_ALL=C next
    case $2 in
    form)
        next=${1:$3:1}
        case $next in
        '') next='it ends there' ;;
        [[:graph:]]) next="not \`$next\`" ;;
        ' ') next='not a blank' ;;
        *) next='not what stands there' ;;
        esac
        [ "$3" = 0 ] && echo "it must begin with a decimal digit, and $next" && return
        echo "after \`${1:0:$3}\` may come $(may_follow "${1:0:$3}"), and $next"
        ;;
    letter) echo "its digit ${1:$3:1} after \`${1:0:$3}\` isn't" ;;
    length)
        [[ $1 =~ ^0?([0-9]+):0?([0-9]+):.*t(.*)$ ]] || return
        echo "these are $((BASH_REMATCH[1] ** BASH_REMATCH[2])) digits, and it has ${#BASH_REMATCH[3]}"
        ;;
    esac
}

# refusal REASON: what must hold of a certificate that is refused for this reason, by the tables of CERTIFICATES.md; fails if they
# don't have the reason. The letters behind a reason there stand for numbers.
refusal() {
    local LC_ALL=C row name
    while IFS= read -r row; do
        row=${row% |}
        name=${row##* | \`}
        name=${name%%\`*}
        while [[ $name == *' '[A-Z] ]]; do name=${name% ?}; done
        [[ "$1 " == "$name "* ]] || continue
        row=${row% | *}
        echo "what must hold: ${row##* | }" | plain
        return
    done < <(sed -n '/^| Step |/,/^## Why /{/^| .* | `/p}' "$pages/CERTIFICATES.md")
    return 1
}

# explain OUTPUT WORD..: says what it means that the program's output for these words is this one, and how it is called.
explain() {
    local output=$1 name=${2-} text place kind at
    shift
    case $output in
    'usage error')
        if [ "$me" = rules ]; then
            usage_fault "${before}rules" 'PROPERTY BEGIN' "$@"
        elif is_command "$name"; then
            usage_fault "$name" "$(operands "$name")" "${@:2}"
        else
            no_command "$name"
            return
        fi
        ;;
    'rule fault '*)
        read -r place kind at <<<"${output#rule fault }"
        text=${*:place+1:1}
        if [ "$me" = rules ]; then
            echo "BEGIN is \`$2\`: $(meaning list "$kind")"
            at_place "$2" "$kind" "$at"
        elif [[ $(operands "$name") == K* ]]; then
            echo "K is $2 and M is $3: $(meaning shape "$kind")"
        else
            echo "R is \`$text\`: $(meaning rule "$kind")"
            at_place "$text" "$kind" "$at"
        fi
        ;;
    'refused '*)
        refusal "${output#refused }" || :
        case $output in
        'refused format rule '*)
            read -r kind at <<<"${output#refused format rule }"
            meaning rule "$kind"
            ;;
        esac
        echo "standard input must have a certificate that is accepted, such as ${before}ca certify R prints; $shown/CERTIFICATES.md has all" \
            "conditions"
        ;;
    'notfit '*)
        kind=${output#notfit }
        case $kind in twins* | wide*) kind=${kind%% *} ;; esac
        meaning "$name" "$kind"
        ;;
    esac
    if [ "$me" = rules ]; then echo "    ${before}rules PROPERTY BEGIN"; else form "$name"; fi
}

# named: writes lines to standard error, those that aren't indented behind the script's name.
named() { sed "s/^[^ ]/$me: &/" >&2; }

# explained PROGRAM WORD..: runs the program and gives its status. If somebody looks at standard error and the words are refused,
# it says there what that means; the program then answers once more, in one line, so that its first output is its own. Standard
# input is read only once, so the answer of `check`, which is short, is kept and then written.
explained() {
    local status answer=
    explains || exec "$@"
    if [ "$me" = ca ] && [ "${2-}" = check ]; then
        answer=$("$@")
        status=$?
        [ -z "$answer" ] || printf '%s\n' "$answer" 2>/dev/null || status=7
    else
        "$@"
        status=$?
    fi
    case $status in
    1) explain "$answer" "${@:2}" | named ;;
    [234]) explain "$("$@" 2>/dev/null </dev/null)" "${@:2}" | named ;;
    5) echo "a certificate must have at most 4,194,304 bytes" | named ;;
    6) echo "standard input couldn't be read" | named ;;
    7) echo "the output couldn't be written" | named ;;
    8) echo "there wasn't enough memory" | named ;;
    9) echo "a word isn't in UTF-8, or the system didn't give the words" | named ;;
    esac
    return "$status"
}

# page COMMAND: its form, what its operands may be, and its part of docs/COMMANDS.md.
page() {
    local line inside=
    form "$1"
    tell_operands "$1" "$(operands "$1")"
    echo
    while IFS= read -r line; do
        case $line in
        "## $1" | "## $1 "*) inside=yes ;;
        '## '*) inside= ;;
        esac
        [ -z "$inside" ] || printf '%s\n' "${line#\#\# }"
    done <"$commands_page" | plain
}

# give_help WORD..: if there are no words or they ask for help, says on standard error what they ask for, gives the program's
# answer to them and ends. It returns if it would have to judge a rule for that answer.
give_help() {
    local word name= place=2
    [ $# = 0 ] || asks_help "$@" || return
    for word; do [ -n "$name" ] || ! is_command "$word" || name=$word; done
    if [ -n "$name" ]; then
        page "$name"
    else
        echo "usage: ${before}ca COMMAND OPERANDS. R is a rule, for example 110"
        forms
        echo "${before}ca help COMMAND says more of one; $shown/COMMANDS.md has all."
        [[ ${1-} != help || ${2---help} == --help ]] || echo "there is no command \`$2\`"
    fi >&2
    if ! is_command "${1-}" || usage_fault "$1" "$(operands "$1")" "${@:2}" >/dev/null; then
        printf 'usage error\n' 2>/dev/null || exit 7
        exit 2
    fi
    # --help is in the place of a rule. The number of an elementary rule before it is accepted.
    if [ "$2" = --help ] || [[ $2 =~ ^0{0,30}([0-9]{1,3})$ && 10#${BASH_REMATCH[1]} -le 255 ]]; then
        [ "$2" != --help ] || place=1
        printf 'rule fault %s form 0\n' "$place" 2>/dev/null || exit 7
        exit 3
    fi
}

# give_lists_help WORD..: if there are no words, says on standard error how ./rules is called, gives the program's answer and
# ends; if they ask for help, prints the beginning of docs/LISTS.md and ends.
give_lists_help() {
    if asks_help "$@"; then
        sed -n '/^## The order$/q; p' "$pages/LISTS.md" | plain || exit 70
        exit 0
    fi
    [ $# = 0 ] || return 0
    {
        echo "usage: ${before}rules PROPERTY BEGIN; ${before}rules --help says more"
        tell_operands "${before}rules" 'PROPERTY BEGIN'
    } >&2
    printf 'usage error\n' 2>/dev/null || exit 7
    exit 2
}
