# The program `runtime`, to the byte.

R1=7364727224010201050000000000002000000100000000000100020B96002C012C010103

# bytes HEX: the bytes that the digits stand for
bytes() {
    printf "$(printf '%s' "$1" | sed 's/../\\x&/g')"
}

# gives EXPECTED: compares standard input with the lines, joined by '|'
gives() {
    diff <(cat) <(printf '%s\n' "$1" | tr '|' '\n') >&2
}

HEAD='head 1 2 1 5 536870920 536870912 65536'

test_runtime_r1() {
    bytes $R1 | crates/runtime/out/runtime | gives "$HEAD|0.6.0 1 0 1 11 150 300 300|0.6.2 absent|0.6.3 absent|0.6.7 absent"
}

test_runtime_r2() {
    bytes ${R1:0:66} | crates/runtime/out/runtime | gives "$HEAD|0.6.0 absent|0.6.2 absent|0.6.3 absent|0.6.7 absent"
}

test_runtime_r3() {
    bytes ${R1:0:8}13${R1:10} | crates/runtime/out/runtime | gives "refused 61"
}

test_runtime_r4() {
    bytes ${R1:0:54}20${R1:56} | crates/runtime/out/runtime | gives "$HEAD|0.6.0 absent|0.6.2 absent|0.6.3 absent|0.6.7 absent"
}

test_runtime_empty_input() {
    crates/runtime/out/runtime </dev/null | gives "refused 2"
}

# Input that arrives one byte at a time is read to its end.
test_runtime_byte_by_byte() {
    (
        for ((i = 0; i < 72; i += 2)); do
            bytes ${R1:$i:2}
            sleep 0.005
        done
    ) | crates/runtime/out/runtime | gives "$HEAD|0.6.0 1 0 1 11 150 300 300|0.6.2 absent|0.6.3 absent|0.6.7 absent"
}

# At most 64 bytes count: with all 64 and more behind them every group is judged by the first 64 alone.
test_runtime_later_bytes_are_ignored() {
    local front=${R1:0:8}FF${R1:10:58}0102010801050000000000000000000000000000000003FFFFFFFFFFFFFF
    (bytes $front; head -c 100000 /dev/zero) | crates/runtime/out/runtime |
        gives "$HEAD|0.6.0 1 0 1 11 150 300 300|0.6.2 1 2|0.6.3 1 8 1|0.6.7 5 3"
}

# tests/data/runtime.txt: a record, then the lines that the program must print.
test_runtime_vectors_of_the_program() {
    local record lines n=0
    while IFS='|' read -r record lines; do
        bytes "$record" | crates/runtime/out/runtime | gives "$lines" || { echo "record $record" >&2; return 1; }
        n=$((n + 1))
    done <tests/data/runtime.txt
    [ $n -gt 200 ]
}

# README's call, on the sample that the gate runs the program on too.
test_runtime_sample() {
    cmp samples/runtime.bin crates/runtime/stdin && crates/runtime/out/runtime <samples/runtime.bin | cmp - crates/runtime/stdout
}

# says OUTPUT ERROR ARGUMENT...: what the program writes to standard output and to standard error, lines joined by '|'; its input is this function's
says() {
    local out=$1 err=$2
    shift 2
    crates/runtime/out/runtime "$@" 2>target/runtime.err | gives "$out" && gives "$err" <target/runtime.err
}

# Help goes to standard error, on one screen; no record is read, and standard output stays empty.
test_runtime_help() {
    local asked
    for asked in --help -h; do
        crates/runtime/out/runtime "$asked" <samples/runtime.bin 2>target/runtime.err | cmp - /dev/null &&
            cmp target/runtime.err tests/data/runtime-help.txt || return 1
    done
    [ "$(wc -l <tests/data/runtime-help.txt)" -le 24 ] && [ "$(wc -L <tests/data/runtime-help.txt)" -le 80 ]
}

# Input that can't be read is said; standard output is as of an input that ends there.
test_runtime_unreadable_input() {
    says "refused 2" "runtime: standard input could not be read: Is a directory" </ &&
        says "refused 2" "runtime: standard input could not be read: Bad file descriptor" <&- &&
        says "refused 2" "runtime: standard input could not be read: Input/output error" </proc/self/mem
}

# An argument that is not understood is said, and the record is read all the same.
test_runtime_argument() {
    local note="runtime: reads standard input, and no argument but --help counts"
    says "$(tr '\n' '|' <crates/runtime/stdout | sed 's/|$//')" "$note" record.bin <samples/runtime.bin
}

# What was not written is said.
test_runtime_full_disk() {
    local what="runtime: standard output could not all be written"
    crates/runtime/out/runtime <samples/runtime.bin 2>&1 >/dev/full | gives "$what: No space left on device" &&
        crates/runtime/out/runtime <samples/runtime.bin 2>&1 >&- | gives "$what: Bad file descriptor"
}
