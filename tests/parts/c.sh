# The static library, called from C through include/onerom.h.

test_c_library() {
    tests/library >target/library.log 2>&1 || { tail -n 5 target/library.log; return 1; }
    [ -f crates/onerom_c/out/libonerom.a ]
}

# The library keeps nothing: it has code and constants, no memory of its own, and calls nobody else.
test_c_library_has_no_state() {
    needs nm
    nm crates/onerom_c/out/libonerom.a >target/symbols && grep -q ' T onerom_open$' target/symbols &&
        ! awk 'NF > 1 && $(NF - 1) !~ /^[TtRr]$/' target/symbols | grep .
}

# c_test NAME [ARGUMENT]: tests/c/NAME.c says ok
c_test() {
    cc -std=c99 -Wall -Wextra -Werror -pedantic -Iinclude -o "target/c-$1" "tests/c/$1.c" crates/onerom_c/out/libonerom.a &&
        "target/c-$1" ${2:+"$2"} >"target/c-$1.out" && grep -qx ok "target/c-$1.out" || { cat "target/c-$1.out"; return 1; }
}

test_c_calls() {
    c_test calls
}

# A read by the set's own ROMs beside one by set 0's.
test_c_own() {
    c_test own
}

# A count for each job, by every read.
test_c_counts() {
    c_test counts
}

# Histories of several jobs: another reader's answers.
test_c_jobs() {
    needs python3
    cc -std=c99 -Wall -Wextra -Werror -pedantic -Iinclude -o target/c-jobs tests/c/jobs.c crates/onerom_c/out/libonerom.a &&
        python3 -B tests/c/jobs.py target/c-jobs
}

# The first ROM row of every set, on boards of up to 255 sets: another reader's answers.
test_c_rows() {
    needs python3
    cc -std=c99 -Wall -Wextra -Werror -pedantic -Iinclude -o target/c-rows tests/c/rows.c crates/onerom_c/out/libonerom.a &&
        python3 -B tests/c/rows.py target/c-rows
}

# Every field of every struct, by name and by offset.
test_c_fields() {
    c_test fields
}

# Every constant, beside what the calls answer.
test_c_numbers() {
    c_test numbers
}

test_c_header_in_cpp() {
    c++ -std=c++11 -Wall -Wextra -Werror -pedantic -Wno-address -Iinclude -o target/c-cpp tests/c/header.cpp crates/onerom_c/out/libonerom.a && target/c-cpp
}

# The examples, on a sample board: C's and Rust's say the same.
test_c_example() {
    cc -std=c99 -Wall -Wextra -Werror -Iinclude -o target/example-c examples/c/board.c crates/onerom_c/out/libonerom.a &&
        target/example-c samples/rp2350.img >target/example-c.out &&
        cmp target/example-c.out tests/data/example.txt
}

test_rust_example() {
    needs rustc
    rustc --edition 2024 -D warnings -O -o target/example-rust examples/rust/board.rs -L crates/onerom_c/out -l static=onerom &&
        target/example-rust samples/rp2350.img >target/example-rust.out &&
        cmp target/example-rust.out tests/data/example.txt
}

# Both on odd names, on sets of no and of several ROMs, and on files that can't be opened.
test_c_example_names() {
    needs python3
    python3 -B tests/c/examples.py target/example-c
}

test_rust_example_names() {
    needs rustc
    needs python3
    python3 -B tests/c/examples.py target/example-rust
}

# What the example could not write it says.
test_c_example_full_disk() {
    local said
    said=$(target/example-c samples/rp2350.img 2>&1 >/dev/full)
    [ $? -eq 1 ] && [ "$said" = "the answer could not all be written" ]
}

# The same fields in Rust, on the board of the C test.
test_rust_fields() {
    needs rustc
    c_test fields target/fields.img &&
        rustc --edition 2024 -D warnings -o target/rust-fields tests/rust/fields.rs -L crates/onerom_c/out -l static=onerom &&
        [ "$(target/rust-fields target/fields.img)" = ok ]
}

# The wrapper's reads, on the sample boards.
test_rust_calls() {
    needs rustc
    rustc --edition 2024 -D warnings -O -o target/rust-calls tests/rust/calls.rs -L crates/onerom_c/out -l static=onerom && [ "$(target/rust-calls)" = ok ]
}

# The sample boards are what their generator makes.
test_samples() {
    needs python3
    python3 -B samples/make.py --check && python3 -B samples/example.py | cmp - tests/data/example.txt
}
