# shellcheck shell=bash
# tools/savings.sh: the verb savings of ./umlazgrin, which sources this and has what is not defined here.
# The program savings works every form and counts. Here its numbers get words, percentages and bars. It says of how many lines that they
# are no form, but not of which: these are looked for, and must be as many.
# shellcheck disable=SC2154 # the caller's

savings_form='^([0-9a-f][0-9a-f])*$'
savings_rules=(cons_optimizer constant_optimizer cons_q_a_optimizer var_change_optimizer_cons_eval
    children_optimizer path_optimizer quote_null_optimizer apply_null_optimizer)

# ---- files

# A file's name, as part of one line.
savings_shown() { printf '%s' "${1//[^ -~]/?}"; }

savings_file() { # FILE
    if [ ! -e "$1" ]; then wrong "there is no file '$(savings_shown "$1")'"; fi
    if [ ! -r "$1" ]; then wrong "the file '$(savings_shown "$1")' cannot be read"; fi
    files+=("$1")
}

# In the order of the names' bytes. What is hidden is left out, and so are folders.
savings_folder() { # FOLDER
    local file before=${#files[@]}
    if [ ! -r "$1" ] || [ ! -x "$1" ]; then wrong "the folder '$(savings_shown "$1")' cannot be read"; fi
    shopt -s nullglob
    for file in "${1%/}"/*; do
        if [ ! -d "$file" ]; then savings_file "$file"; fi
    done
    shopt -u nullglob
    if [ ${#files[@]} = "$before" ]; then wrong "the folder '$(savings_shown "$1")' has no file to read"; fi
}

# Sets files; standard input is the empty name, which no file has.
savings_list() {
    local word
    files=()
    if [ ${#given[@]} = 0 ]; then given=(-); if [ -t 0 ]; then wrong "$(usage savings)"; fi; fi
    for word in "${given[@]}"; do
        if [ "$word" = - ]; then files+=(''); elif [ -d "$word" ]; then savings_folder "$word"; else savings_file "$word"; fi
    done
}

# Keeps what can be read only once, or does not say its size; sets source.
savings_pipe() { # FILE
    source=$work/pipe.${#names[@]}
    if [ -z "$1" ]; then cat >"$source" 2>/dev/null || stop "standard input could not be kept"; return; fi
    cat -- "$1" >"$source" || stop "the file '$(savings_shown "$1")' could not be read"
}

# Keeps all lines, since a file may change meanwhile: behind their numbers in their files, and each with a newline, so that no last line is
# glued to the next file's first. Files without a line are left out; so where the number is 1, one of names begins.
savings_keep() {
    local file source sources=()
    names=()
    for file in "${files[@]}"; do
        source=$file
        if [ ! -f "$file" ] || [ ! -s "$file" ]; then savings_pipe "$file"; fi
        if [ -s "$source" ]; then sources+=("$source") names+=("${file:-standard input}"); fi
    done
    : >"$work/numbered"
    if [ ${#sources[@]} != 0 ]; then
        printf '%s\0' "${sources[@]}" | xargs -0 grep -ahn '' -- >"$work/numbered" || stop "not every file could be read"
    fi
    cut -d: -f2- "$work/numbered" >"$work/input" || stop "the lines could not be kept"
    total=$(wc -l <"$work/input")
}

# ---- asking

# How far the program is: the place in its input, which it shares with descriptor 3. On a terminal one line, written over and over; else one
# for each tenth, and the last when the program has ended.
savings_progress() { # [last]
    local at line handed now
    { read -r _ at </proc/self/fdinfo/3 && handed=$(head -c "$at" "$work/input" | wc -l); } 2>/dev/null || return
    line="working: $handed of $total lines handed over, $(programs_time) so far" now=$((10 * handed / (total + 1)))
    if [ -t 2 ]; then printf '\r%s\033[K' "${line:0:79}" >&2; return; fi
    if [ $# = 1 ] || { [ $now != "$tenth" ] && [ "$handed" != "$total" ]; }; then echo "$line" >&2; fi
    tenth=$now
}

# The program does not outlive this.
savings_ask() {
    local tenth='' job code
    programs_find savings
    exec 3<"$work/input"
    SECONDS=0
    "${programs_words[@]}" <&3 3<&- >"$work/answers" &
    job=$!
    trap 'kill "$job" 2>/dev/null; rm -rf "$work"' EXIT
    if [ -t 2 ]; then progress=--progress; fi
    while [ -n "$progress" ] && kill -0 "$job" 2>/dev/null; do
        savings_progress
        sleep 0.2
    done
    wait "$job"
    code=$?
    trap 'rm -rf "$work"' EXIT
    if [ -t 2 ]; then printf '\r\033[K' >&2; elif [ -n "$progress" ]; then savings_progress last; fi
    exec 3<&-
    if [ $code != 0 ]; then stop "the program savings ended with status $code"; fi
}

# Sets the report's columns; full, where a form was one too many; and skipped, how many lines were no form.
savings_read() {
    # With so few digits nothing below is too great for the shell.
    local number='(0|[1-9][0-9]{0,14})' shape k said
    shape="^forms $number;answered $number;"
    for k in {1..14}; do shape+="refused $k $number;"; done
    shape+="marked $number;bytes $number $number;passes $number;rules"
    for k in {1..8}; do shape+=" $number"; done
    shape+=';(no 17;)?$'
    said=$(sed '0,/^forms /{/^no line$/d}' "$work/answers" | tr '\n' ';')
    [[ $said =~ $shape ]] || stop "the program savings printed what is no report: $(quoted "$said")"
    forms=${BASH_REMATCH[1]} answered=${BASH_REMATCH[2]} refused=("${BASH_REMATCH[@]:3:14}") marked=${BASH_REMATCH[17]}
    before=${BASH_REMATCH[18]} after=${BASH_REMATCH[19]} passes=${BASH_REMATCH[20]} ended=("${BASH_REMATCH[@]:21:8}")
    full=${BASH_REMATCH[29]} skipped=$(grep -c '^no line$' "$work/answers")
}

# ---- lines that are no form

# Sets unread, the line of the form that was one too many, or that behind the last. And lists the lines before it that are no form: the
# number, and whether a carriage return at its end is all that is wrong.
savings_find() {
    local found
    unread=$((total + 1))
    if [ -n "$full" ]; then unread=$(grep -anE -m 4097 "$savings_form" "$work/input" | cut -d: -f1 | sed -n 4097p); fi
    grep -anvE "$savings_form" "$work/input" | sed -E -e 's/^([0-9]+):([0-9a-f]{2})*\r$/\1 return/' -e t -e 's/:.*/ other/' |
        awk -v end="${unread:-0}" '$1 < end' >"$work/skipped"
    found=$(wc -l <"$work/skipped")
    if [ -z "$unread" ] || [ "$found" != "$skipped" ]; then stop "the program savings took other lines for forms than those that are"; fi
    mapfile -t starts < <(grep -an '^1:' "$work/numbered" | cut -d: -f1)
}

# Sets file, the one that has a line of the input. Lines come in their order.
savings_locate() { # LINE
    while [ "${starts[file + 1]:-$(($1 + 1))}" -le "$1" ]; do file=$((file + 1)); done
}

# Sets place: lines of the input, all of one file, as they stand there.
savings_place() { # FIRST LAST
    local from=$(($1 - starts[file] + 1)) to=$(($2 - starts[file] + 1))
    place="$(savings_shown "${names[file]}"), line $from"
    if [ $from != $to ]; then place="$(savings_shown "${names[file]}"), lines $from to $to"; fi
}

savings_skip() { # FIRST LAST KIND
    local place
    status=1
    read_words
    savings_place "$1" "$2"
    # What stands last there is about pairs of lines.
    if [ "$3" = other ]; then say "$place: no line${no_line:+: ${no_line%, or a second line*}}"; return; fi
    say "$place: no line: a carriage return stands at the end"
    printf '  what to do: %s\n' "take it out, as tr -d '\r' does" >&2
}

# Lines of one kind that follow each other in a file are named together.
savings_name() {
    local line kind first='' last='' of=''
    while read -r line kind; do
        if [ "$kind $line" = "$of $((last + 1))" ] && [ "${starts[file + 1]:-}" != "$line" ]; then last=$line; continue; fi
        if [ -n "$first" ]; then savings_skip "$first" "$last" "$of"; fi
        savings_locate "$line"
        first=$line last=$line of=$kind
    done <"$work/skipped"
    if [ -n "$first" ]; then savings_skip "$first" "$last" "$of"; fi
}

savings_full() {
    local place
    status=1
    read_words
    savings_locate "$unread"
    savings_place "$unread" "$unread"
    say "$place: no 17: ${meanings[17]:-see README.md}"
    if [ -n "${advices[17]:-}" ]; then printf '  what to do: %s\n' "${advices[17]}" >&2; fi
    echo "  the report is over the $forms forms before that line; from there on nothing was read" >&2
}

# ---- the table

# Sets share, in percent, cut after one digit: so 100.0% is all. It is empty where there is nothing to have a share of.
savings_share() { # PART WHOLE WORDS
    share=''
    if [ "$2" != 0 ]; then share=", $(($1 * 100 / $2)).$(($1 * 1000 / $2 % 10))%$3"; fi
}

savings_refused() {
    local k share
    savings_share $((forms - answered)) "$forms" ' of the forms'
    put "refused   $((forms - answered))$share"
    for k in {1..14}; do
        if [ "${refused[k - 1]}" = 0 ]; then continue; fi
        status=1
        read_words
        put "$(printf '  no %-4d %d: %s' "$k" "${refused[k - 1]}" "${meanings[k]:-see README.md}")"
    done
}

savings_bytes() {
    local share less=$((before - after)) word=saved
    if [ $less -lt 0 ]; then less=$((-less)) word=more; fi
    savings_share $less "$before" ''
    put "bytes     $before before, $after after: $less $word$share"
}

# A bar has 20 marks for all passes, and one for any share, however small.
savings_bars() {
    local sum=0 all width=1 k share bar
    for k in {0..7}; do
        sum=$((sum + ended[k]))
        if [ ${#ended[k]} -gt "$width" ]; then width=${#ended[k]}; fi
    done
    all=$((sum == 0 ? 1 : sum))
    put "rules     passes that they ended: $sum"
    for k in {0..7}; do
        savings_share "${ended[k]}" $sum ''
        printf -v bar '%*s' $(((20 * ended[k] + all - 1) / all)) ''
        printf -v bar '  %d %-30s  %*d  %6s  %s' $((k + 1)) "${savings_rules[k]}" "$width" "${ended[k]}" "${share#, }" "${bar// /#}"
        put "${bar%"${bar##*[! ]}"}"
    done
}

savings_table() {
    local share
    put "forms     $forms"
    savings_share "$answered" "$forms" ' of the forms'
    put "answered  $answered$share"
    savings_refused
    savings_share "$marked" "$answered" ' of the answered'
    put "marked    $marked$share"
    savings_bytes
    put "passes    $passes at most in a form"
    savings_bars
}

savings() {
    local file=0
    if [ -n "$hex" ]; then wrong "$(usage savings)"; fi
    savings_list
    begin savings
    savings_keep
    savings_ask
    savings_read
    savings_find
    savings_name
    savings_table
    if [ -n "$full" ]; then savings_full; fi
    exit "$status"
}
