#!/bin/sh
# Compares the code size of the library with that of the accounts, entry by entry: the Rust one built for size
# (tests/sized), and the one in plain C (tests/yardstick) at -Os and -O3, which has the entries for one call and the
# console's. The second engine (libhost_small.a) stands beside the first: code and constants together, and part by part.
#
# All are linked the same way into a C program that names functions, unused sections dropped; what a
# program that names none of them already has is subtracted. Ratios are the library's code to it.
set -e
here=$(cd "$(dirname "$0")" && pwd)
folder=${CALLCONTROL_LIB_DIR:-$here/../target/staticlib}
for archive in host host_console host_direct host_small; do
    if [ ! -f "$folder/lib$archive.a" ]; then
        echo "$folder/lib$archive.a is missing: run \`tests/archives.sh build\` first" >&2
        exit 1
    fi
done
# The library that is shipped is x86-64 code; one of tests/at_hand.sh is for the machine at hand, or for the one that it was told.
machine=$(ar p "$folder/libhost.a" | od -An -tu2 -j18 -N2 | tr -d ' ')
case $machine.$(uname -m) in
62.x86_64 | 183.aarch64) cross= ;;
62.*)
    echo 'The account in Rust cannot be built for x86-64 here: the library is measured beside plain C alone.'
    cross=x86_64-linux-gnu-
    ;;
183.*)
    echo 'The account in Rust cannot be built for Arm here: the library is measured beside plain C alone.'
    cross=aarch64-linux-gnu-
    ;;
*)
    echo "$folder/libhost.a is for another machine" >&2
    exit 1
    ;;
esac

work=$(mktemp -d)
trap 'rm -rf "$work"' EXIT

linked() { # program, names of functions, archive or object ..: the program that names them
    program=$1
    functions=$2
    shift 2
    {
        for function in $functions; do echo "void $function(void);"; done
        echo 'void *const volatile named[] = {'
        for function in $functions; do echo "    (void *)$function,"; done
        echo '    0};'
        echo 'int main(void) { return named[0] != 0; }'
    } >"$work/$program.c"
    ${cross}gcc -std=c11 -Os -ffunction-sections -fdata-sections "$work/$program.c" "$@" -Wl,--gc-sections -o "$work/$program"
}
section() { # program, section
    ${cross}size -A "$work/$1" | awk -v name="$2" '$1 == name { bytes = $2 } END { print bytes + 0 }'
}
code() { echo $(($(section "$1" .text) - $(section none .text))); }
constants() { echo $(($(section "$1" .rodata) - $(section none .rodata))); }
side() { # program: its columns, with the ratio of the library's code
    awk -v own="$(code library)" -v code="$(code "$1")" -v constants="$(constants "$1")" \
        'BEGIN { printf "%9d%7d%7.2f", code, constants, own / code }'
}
with() { # a prefix, names: each with it
    prefix=$1
    shift
    for name in "$@"; do printf '%s%s ' "$prefix" "$name"; done
}
row() { # what, archive, feature of the account, entry ..
    what=$1
    archive=$2
    feature=$3
    shift 3
    linked library "$(with callcontrol_ "$@")" "$folder/lib$archive.a"
    printf '  %-24s%8d%7d' "$what" "$(code library)" "$(constants library)"
    if [ -z "$cross" ]; then
        linked account "$(with callcontrol_ "$@")" "$sized/$feature/release/libsized.a"
        side account
    else
        printf '%9s%7s%7s' - - -
    fi
    if [ -n "$in_c" ]; then
        for level in -Os -O3; do
            linked "in_c$level" "$(with plain_ "$@")" "$work/step$level.o" "$work/console$level.o"
            side "in_c$level"
        done
    else
        printf '   no account in C'
    fi
    echo
}
group() { # what, archive, feature of the account, entry ..: each entry alone, and all together
    printf '%s (lib%s.a)\n' "$1" "$2"
    of=$2
    group=$3
    shift 3
    for entry in "$@"; do
        row "$entry" "$of" "$group" "$entry"
    done
    row "all $#" "$of" "$group" "$@"
}

linked none ''
for level in -Os -O3; do
    for name in step console; do
        ${cross}gcc -std=gnu11 $level -ffunction-sections -fdata-sections -w -c "$here/yardstick/$name.c" -o "$work/$name$level.o"
    done
done
sized=$here/sized/target
if [ -z "$cross" ]; then
    for group in one_call console pieces bank channel direct; do
        cargo build --quiet --release --offline --manifest-path "$here/sized/Cargo.toml" --features $group --target-dir "$sized/$group"
    done
fi

echo 'Bytes of code (.text) and constants (.rodata) beyond a program that names nothing, and the ratio of the code.'
printf '%-26s%15s%23s%23s%23s\n' '' library account 'plain C -Os' 'plain C -O3'
printf '%-26s%8s%7s' '' code const.
printf '%9s%7s%7s' code const. ratio code const. ratio code const. ratio
echo
in_c=yes
group 'one call' host one_call fresh step check_event check_message copy_event copy_message
group 'one call, second engine' host_small one_call fresh step
group 'a console' host_console console console_fresh console_step
in_c=
group 'a serial line' host pieces pieces_fresh pieces_next
group 'timers kept by the library' host bank bank_new bank_stop bank_start bank_advance
group 'channel questions' host channel channel_fresh channel_ask channel_pdu channel_decide channel_ended
group 'direct mode' host_direct direct direct_fresh direct_step direct_check_event direct_check_message \
    direct_copy_event direct_copy_message

echo
linked first callcontrol_step "$folder/libhost.a"
linked second callcontrol_step "$folder/libhost_small.a"
linked in_c-Os plain_step "$work/step-Os.o"
linked in_c-O3 plain_step "$work/step-O3.o"
[ -n "$cross" ] || linked account callcontrol_step "$sized/one_call/release/libsized.a"
both() { echo $(($(code "$1") + $(constants "$1"))); }
printf '%-46s%8s%15s%15s\n' 'a program that only steps, code and constants' bytes 'first engine/' 'second engine/'
for program in first second account in_c-Os in_c-O3; do
    [ -f "$work/$program" ] || continue
    awk -v what="$program" -v first="$(both first)" -v second="$(both second)" -v it="$(both $program)" 'BEGIN {
        name["first"] = "first engine"; name["second"] = "second engine"; name["account"] = "account"
        name["in_c-Os"] = "plain C -Os"; name["in_c-O3"] = "plain C -O3"
        printf "  %-44s%8d%15.2f%15.2f\n", name[what], it, first / it, second / it }'
done

# Part by part. What is shipped is one function for most of it, so that the parts can't be told apart in it. Of the engines,
# the modules that tests/at_hand.sh keeps are compiled with no function written out into another, and a function
# counts to the module of its source; plain C is one file of static functions, compiled at -Os with -fno-inline, and each
# function stands by its name. Those that read or write a number count to reading and to messages, though a record
# uses them too.
kit=$(dirname "$(dirname "$(readlink -f "$(command -v rt)")")")
clang=$kit/toolchain/bin/clang
kept=$here/../target/at-hand
brought() { # program, column: column, name and bytes of each function that a step brings
    ${cross}nm -S -t d "$work/none" | awk '{ print $NF }' >"$work/none.names"
    ${cross}nm -S -t d "$work/$1" | awk -v column="$2" -v none="$work/none.names" '
        BEGIN { while ((getline one <none) > 0) known[one] = 1 }
        NF == 4 && tolower($3) == "t" && !($4 in known) {
            parts = split($4, name, "::")
            if (parts == 1) sub(/\..*/, "", $4)
            print column, parts == 1 ? $4 : parts == 2 ? name[1] : name[1] "::" name[2], $2 + 0
        }' >>"$work/parts"
    echo "$2" constants "$(constants "$1")" >>"$work/parts"
}
quietly() { # command ..: what it says is told only where it fails, since a compiler for Arm says that it knows no x86-64
    "$@" 2>"$work/said" || {
        cat "$work/said" >&2
        exit 1
    }
}
apart() { # archive, which options, column
    mkdir "$work/$1"
    cd "$work/$1"
    quietly "$clang" "$(grep '^--target=' "$kept/$1.$2")" -S -emit-llvm -O0 -Xclang -disable-llvm-passes -Wno-override-module \
        -x ir "$kept/$1.bc" -o module.ll
    # The compiler reads the text as it reads the module.
    sed 's/^\(define internal .*)\) #/\1 noinline #/' module.ll >module.bc
    quietly xargs -d '\n' -a "$kept/$1.$2" "$clang"
    cd "$here"
    linked "apart_$1" callcontrol_step "$work/$1/module.o"
    brought "apart_$1" "$3"
}
echo
if [ -f "$kept/host.bc" ] && [ -f "$kept/host_small.bc" ]; then
    options=shipped
    [ "$machine" = 62 ] || options=here
    apart host "$options" 1
    apart host_small "$options" 2
    ${cross}gcc -std=gnu11 -Os -fno-inline -ffunction-sections -fdata-sections -w -c "$here/yardstick/step.c" -o "$work/apart.o"
    linked apart_c plain_step "$work/apart.o"
    brought apart_c 3
    echo 'Parts of a step in bytes: functions by module, of plain C by name. None is written out into another (plain C: -Os'
    echo '-fno-inline), so that the sums are larger than what is linked.'
    printf '%-46s%8s%8s%8s\n' '' first second 'plain C'
    awk '
        function part(name) {
            if (name ~ /^(callcontrol::call|host::packed|unpack|pack)$/) return 1
            if (name ~ /^(records::(bodies|fields|letters|events)|small::reading|read_event|timer_bit|u16_at|u32_at)$/) return 2
            if (name ~ /^(callcontrol::rows?|small::(rows|table)|row)$/) return 3
            if (name ~ /^(callcontrol::settle|stop|start|start_t310|store_slots|configure|grant|grant_or_off|release|end_call|pdu|user|tx_indication)$/) return 4
            if (name ~ /^(callcontrol::writing|records::(messages|lines|message_lines)|small::laying|bytes.*|written|lay|lay_one|put16|put32|__popcountdi2)$/) return 5
            if (name ~ /^(callcontrol(::step)?|small|host|host_small|callcontrol_step|plain_step)$/) return 6
            return name == "constants" ? 7 : 8
        }
        function columns(at, what, key) {
            printf "%d;%s;%-46s%8s%8s%8s\n", at, key, what, of[key, 1], of[key, 2], of[key, 3]
        }
        { at = part($2); names[$2]; whole[at]; of[$2, $1] += $3; of["", at, $1] += $3; of["all", $1] += $3 }
        END {
            split("a record unpacked, tested and packed;an event read;rows;orders and the next record;messages;" \
                "the step around them, and the entry;constants;others", title, ";")
            for (at in whole) columns(at, "  " title[at], SUBSEP at)
            for (name in names) if (name != "constants") columns(part(name), "    " name, name)
            columns(9, "  all", "all")
        }' "$work/parts" | sort -t ';' -k 1,2 | cut -d ';' -f 3- | sed 's/ *$//'
else
    echo 'The parts of a step are told apart from what tests/at_hand.sh keeps: run it first.'
fi
