#!/bin/sh
# traps.sh COMPILER...: mistakes that would let everything through do not compile,
# and what the README and the header show does. The compiler is named with its
# options, and must take a warning for an error.
set -eu
here=$(cd "$(dirname "$0")" && pwd)
work=$(mktemp -d)
trap 'rm -rf "$work"' EXIT
failed=0

# judge WANTED NAME FILE COMPILER...: whether the compiler takes the file: ok or not.
judge() {
    wanted=$1 name=$2 file=$3
    shift 3
    got=ok
    "$@" -I "$here" -c -o "$work/host.o" "$file" 2>"$work/said" || got=not
    if [ "$got" = "$wanted" ]; then
        echo "ok   traps of $1: $name"
    else
        echo "FAIL traps of $1: $name"
        cat "$work/said"
        failed=1
    fi
}

# compiling WANTED NAME STATEMENT COMPILER...: so of a statement over a monitor m,
# banks b and a record r.
compiling() {
    heading='void host(struct cuckooormolu *m, struct cuckooormolu_banks *b, struct cuckooormolu_record *r)'
    {
        echo '#include "cuckooormolu.h"'
        printf '%s;\n%s\n' "$heading" "$heading"
        echo "{ m->state[0] = b->left[0] = r->event; $3 }"
    } >"$work/host.c"
    wanted=$1 name=$2
    shift 3
    judge "$wanted" "$name" "$work/host.c" "$@"
}

call='cuckooormolu_monitor_request(m, 0, 0, 0)'
then='m->state[1] = 0;'
compiling ok "a grant that is asked for compiles" "if (cuckooormolu_granted($call)) $then" "$@"
compiling not "a call as a truth value does not" "if ($call) $then" "$@"
compiling not "nor does its negation" "if (!$call) $then" "$@"
compiling not "nor a field of it by habit" "if ($call.code) $then" "$@"
compiling not "nor a predicate of that field" "if (cuckooormolu_granted($call.code)) $then" "$@"
compiling not "nor a comparison with a code" "if ($call == CUCKOOORMOLU_GRANTED) $then" "$@"
compiling not "nor a number that keeps it" "size_t code = $call; if (code) $then" "$@"
compiling not "nor a predicate of a number" "if (cuckooormolu_granted(CUCKOOORMOLU_GRANTED)) $then" "$@"
compiling not "nor a predicate that is not called" "if (cuckooormolu_granted) $then" "$@"
compiling not "nor a result that is not looked at" "$call;" "$@"
compiling not "nor a predicate that is not looked at" "cuckooormolu_granted($call);" "$@"
compiling ok "a call's words compile" "if (*cuckooormolu_words($call)) $then" "$@"
compiling ok "an answer's words compile" "if (*cuckooormolu_answer_words(r->answer)) $then" "$@"
compiling ok "an answer that is asked for compiles" "if (cuckooormolu_answer_granted(r->answer)) $then" "$@"
compiling not "an answer as a truth value does not" "if (r->answer) $then" "$@"
compiling not "nor a comparison with its number" "if (r->answer == CUCKOOORMOLU_ANSWER_GRANT) $then" "$@"
compiling not "nor a call's predicate of it" "if (cuckooormolu_granted(r->answer)) $then" "$@"
compiling not "nor a call's words of it" "if (*cuckooormolu_words(r->answer)) $then" "$@"
compiling not "nor an answer's words of a call" "if (*cuckooormolu_answer_words($call)) $then" "$@"
compiling not "nor an answer's predicate of a call" "if (cuckooormolu_answer_granted($call)) $then" "$@"
compiling not "nor one that is not looked at" "cuckooormolu_answer_granted(r->answer);" "$@"

ask() { echo "if (cuckooormolu_granted(cuckooormolu_monitor_ask(m, $1))) $then"; }
event='cuckooormolu_event(0)' from='cuckooormolu_from(0)' to='cuckooormolu_to(0)'
compiling ok "a request by numbers of three kinds compiles" "$(ask "$event, $from, $to")" "$@"
compiling not "initiator and target confused do not" "$(ask "$event, $to, $from")" "$@"
compiling not "nor a member as the event" "$(ask "$from, $event, $to")" "$@"
compiling not "nor plain numbers" "$(ask '0, 0, 0')" "$@"
compiling not "nor a request without its target" "$(ask "$event, $from")" "$@"
compiling not "nor one that is not looked at" "cuckooormolu_monitor_ask(m, $event, $from, $to);" "$@"

plan='cuckooormolu_monitor_plan(m, NULL, NULL, 0, 0, 1, 0, 0, 0)'
tell='cuckooormolu_monitor_tell(m, 0, 0, 0)'
compiling ok "a plan that is asked for compiles" "if (cuckooormolu_accepted($plan)) $then" "$@"
compiling not "a plan as a truth value does not" "if ($plan) $then" "$@"
compiling not "nor an accepted plan as a grant" "if (cuckooormolu_granted($plan)) $then" "$@"
compiling not "nor its refusal as a call's" "if (cuckooormolu_refusal($plan)) $then" "$@"
compiling not "nor a grant as an accepted plan" "if (cuckooormolu_accepted($call)) $then" "$@"
compiling not "nor a plan that is not looked at" "$plan;" "$@"
compiling ok "an entry that is asked for compiles" "if (cuckooormolu_holds($tell)) $then" "$@"
compiling not "an entry as a truth value does not" "if ($tell) $then" "$@"
compiling not "nor an entry that holds as a grant" "if (cuckooormolu_granted($tell)) $then" "$@"
compiling not "nor as an accepted plan" "if (cuckooormolu_accepted($tell)) $then" "$@"
compiling not "nor an entry that is not looked at" "$tell;" "$@"

renumbered='cuckooormolu_monitor_renumber(m, numbers, 2, &next)'
lists='static struct cuckooormolu next; const uint8_t numbers[] = {1, 0};'
compiling ok "a renumbering that is asked for compiles" "$lists if (cuckooormolu_done($renumbered)) *m = next;" "$@"
compiling not "a renumbering as a truth value does not" "$lists if ($renumbered) *m = next;" "$@"
compiling not "nor one that is not looked at" "$lists $renumbered;" "$@"
compiling not "nor one of banks, which share relations" \
    "$lists if (cuckooormolu_done(cuckooormolu_monitor_renumber(b, numbers, 2, &next))) *m = next;" "$@"
compiling not "nor members' numbers of another width" "static struct cuckooormolu next; const int numbers[] = {1, 0};
    if (cuckooormolu_done($renumbered)) *m = next;" "$@"

within='cuckooormolu_monitor_read_within(m, "", 0, NULL, 0, 1, NULL)'
compiling ok "a bounded reading that is asked for compiles" "if (cuckooormolu_done($within)) $then" "$@"
compiling ok "and whether its terms are costly" "if (cuckooormolu_costly($within)) $then" "$@"
compiling not "a bounded reading as a truth value does not" "if ($within) $then" "$@"
compiling not "nor one that is not looked at" "$within;" "$@"
compiling not "nor a question about it that is not looked at" "cuckooormolu_costly($within);" "$@"
compiling not "nor a reading of terms only" \
    'cuckooormolu_monitor_read_terms_within(m, "", 0, NULL, 0, 1, NULL);' "$@"
compiling ok "an effort that is compared compiles" "if (cuckooormolu_monitor_effort(m) < 9) $then" "$@"
compiling not "an effort that is not looked at does not" "cuckooormolu_monitor_effort(m);" "$@"

left='cuckooormolu_left_request(b, 0, 0, 0)'
compiling ok "a grant of a bank that is asked for compiles" "if (cuckooormolu_granted($left)) $then" "$@"
compiling not "a bank's call as a truth value does not" "if ($left) $then" "$@"
for call in "$left" 'cuckooormolu_right_request(b, 0, 0, 0)' 'cuckooormolu_left_look(b, 0, 0, 0)' \
    'cuckooormolu_right_set_list(b, r, 1, NULL)' 'cuckooormolu_both_read(b, "", 0, NULL)' \
    'cuckooormolu_both_open(b)' 'cuckooormolu_both_revise(b, b)'; do
    compiling ok "${call%%(*} that is looked at compiles" "if (cuckooormolu_refusal($call)) $then" "$@"
    compiling not "and one that is not looked at does not" "$call;" "$@"
done
compiling not "nor a request that names no bank" \
    "if (cuckooormolu_granted(cuckooormolu_both_request(b, 0, 0, 0))) $then" "$@"
compiling not "nor a bank by its number" \
    "if (cuckooormolu_granted(cuckooormolu_left_request(b, 1, 0, 0, 0))) $then" "$@"
compiling not "nor one bank's words as banks" \
    "if (cuckooormolu_granted(cuckooormolu_left_request(b->left, 0, 0, 0))) $then" "$@"
compiling not "nor a monitor as banks" "if (cuckooormolu_granted(cuckooormolu_left_request(m, 0, 0, 0))) $then" "$@"
compiling not "nor banks as a monitor" "if (cuckooormolu_granted(cuckooormolu_monitor_request(b, 0, 0, 0))) $then" "$@"
compiling not "nor banks as a monitor where no other warning is an error" \
    "if (cuckooormolu_granted(cuckooormolu_monitor_request(b, 0, 0, 0))) $then" \
    "$@" -Wno-error -Werror=incompatible-pointer-types
compiling not "nor a monitor as the new terms of banks" \
    "if (cuckooormolu_done(cuckooormolu_both_revise(b, m))) $then" "$@"
compiling not "nor a request of banks that may only be read" "const struct cuckooormolu_banks *c = b;
    if (cuckooormolu_granted(cuckooormolu_left_request(c, 0, 0, 0))) $then" "$@"
compiling ok "a look at them compiles" "const struct cuckooormolu_banks *c = b;
    if (cuckooormolu_granted(cuckooormolu_left_look(c, 0, 0, 0))) $then" "$@"

# What only gcc finds: memory that is shorter than the count beside it says.
if echo '#if !defined __clang__ && __GNUC__ >= 10
yes
#endif' | "$1" -E -P -xc - | grep -q yes; then
    list='struct cuckooormolu_record s[2] = {*r, *r}; if (cuckooormolu_done('
    for call in cuckooormolu_monitor_set_list:m cuckooormolu_left_set_list:b cuckooormolu_right_set_list:b; do
        over="${call%:*}(${call#*:}, s,"
        compiling ok "${call%:*} with a count of records compiles" "$list$over 2, NULL))) $then" "$@"
        compiling not "with a count of bytes it does not" "$list$over sizeof s, NULL))) $then" "$@"
    done
    room='char s[9] = {0}; if (cuckooormolu_done('
    for over in 'cuckooormolu_monitor_store(m, s,%, NULL)' 'cuckooormolu_monitor_write(m, s,%, NULL)' \
        'cuckooormolu_monitor_read(m, s,%, NULL)' 'cuckooormolu_both_read(b, s,%, NULL)' \
        'cuckooormolu_monitor_read_within(m, s,%, NULL, 0, 9, NULL)' \
        'cuckooormolu_monitor_read_terms_within(m, NULL, 0, s,%, 9, NULL)'; do
        compiling ok "${over%%(*} within its memory compiles" "$room${over%%%*} sizeof s${over#*%})) $then" "$@"
        compiling not "beyond it it does not" "$room${over%%%*} 10${over#*%})) $then" "$@"
    done
    compiling not "nor a list of new numbers that is longer than it is" \
        "$lists if (cuckooormolu_done(cuckooormolu_monitor_renumber(m, numbers, 3, &next))) *m = next;" "$@"
else
    echo "skip traps of $1: lengths beyond a memory, which gcc 10 finds"
fi

# body NAME: the standard input as the body of a host.
body() {
    heading="void $1(const char *text, size_t length, const char *new_text,
                     size_t new_length, size_t event, size_t from, size_t to)"
    printf '%s;\n%s\n{\n(void)new_text;\n(void)new_length;\n' "$heading" "$heading"
    cat
    echo '}'
}
{
    echo '#include "cuckooormolu.h"'
    echo '#include <stdio.h>'
    echo '#include <stdlib.h>'
    echo '#include <string.h>'
    echo 'enum { SHARE, WITHDRAW, LOAD };'
    echo 'void load(void);'
    echo 'void complain(size_t line);'
    echo 'void keep(const void *text, size_t length);'
    awk '/^```/ { inside = $0 == "```c"; next } inside' "$here/../README.md" | body readme
    # The code in the header's first comment stands five columns in.
    sed -n '/^#ifndef/q; s/^ \*     \(    \)\{0,1\}\([^ ]\)/\1\2/p' "$here/cuckooormolu.h" | body header
} >"$work/shown.c"
judge ok "what the README and the header show compiles" "$work/shown.c" "$@"

if grep -l cuckooormolu_private "$here"/*.c "$here/../README.md"; then
    echo "FAIL only the header names what is private"
    failed=1
fi
exit $failed
