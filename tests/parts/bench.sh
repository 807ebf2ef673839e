# The programs `bench` and `bench_bytes` on the sample boards and on bad input. tests/bench/check.py says what each part compares.

# bench_part NAME
bench_part() {
    needs python3
    python3 -B tests/bench/check.py "$1"
}

# What `rt ci` proved and built just now has no stamp of `rt run`, without which ./bench would have it all proved once more. So it is given one here.
test_bench_programs() {
    [ -x crates/bench/out/bench ] && [ -x crates/bench_bytes/out/bench_bytes ] || return 1
    [ "${RT_CI_PASSED:-0}" = 1 ] || return 0
    (
        . ./bench
        for program_name in bench bench_bytes; do
            choose "$program_name"
            is_proved && continue
            { echo "rt ci" >"$stamp" && content >"$record" && is_proved; } || exit 1
        done
    )
}

test_bench_stored_outputs() {
    bench_part stored
}

test_bench_facts_are_the_generators() {
    bench_part facts
}

test_bench_names() {
    bench_part names
}

test_bench_rare_boards() {
    bench_part rare
}

test_bench_command_line() {
    bench_part words
}

test_bench_wrapper() {
    bench_part wrapper
}

test_bench_reads_are_the_roms_text() {
    bench_part reads
}

test_bench_numbers_in_plain_words() {
    bench_part numbers
}

test_bench_settings() {
    bench_part settings
}

test_bench_exit_status() {
    bench_part statuses
}

test_bench_needs_a_file() {
    bench_part required
}

test_bench_numbers_and_options() {
    bench_part spelled
}

test_bench_many_arguments() {
    bench_part many
}

test_bench_full_disk_or_closed_output() {
    bench_part full
}

test_bench_reader_goes_away() {
    bench_part leaving
}

test_bench_slow_reader() {
    bench_part slow
}

test_bench_bytes_untouched() {
    bench_part untouched
}

test_bench_standard_input_and_folders() {
    bench_part inputs
}

test_bench_unreadable_files() {
    bench_part unreadable
}

test_bench_hints() {
    bench_part hints
}

test_bench_odd_names() {
    bench_part odd
}

test_bench_names_and_bytes_of_same_sets() {
    bench_part alike
}

test_bench_80_columns() {
    bench_part columns
}

test_bench_255_sets_are_quick() {
    bench_part quick
}

test_bench_readme_is_real() {
    bench_part readme
}

# The gate runs the programs in folders of their own, with copies of the sample.
test_bench_sample_is_the_sample() {
    cmp crates/bench/data/samples/rp2350.img samples/rp2350.img &&
        cmp crates/bench_bytes/data/samples/rp2350.img samples/rp2350.img
}

# The help is one screen.
test_bench_help_fits_a_screen() {
    [ "$(crates/bench/out/bench help | wc -l)" -le 24 ] && [ "$(crates/bench/out/bench help | wc -L)" -le 80 ]
}

# The first command of the README: from any folder, a file is looked for from where the caller stands.
test_bench_command() {
    ./bench | cmp - crates/bench/stdout &&
        (cd docs && ../bench) | cmp - crates/bench/stdout &&
        (cd samples && ../bench rp2350.img) | cmp - <(sed '1s/.*:/rp2350.img:/' crates/bench/stdout) &&
        (cd docs && ../bench -- ../samples/rp2350.img raw 0) | cmp - <(crates/bench_bytes/out/bench_bytes samples/rp2350.img raw 0) &&
        (cd docs && ../bench --info-offset=512 - raw 0 <../samples/rp2350.img) | cmp - <(crates/bench_bytes/out/bench_bytes samples/rp2350.img raw 0)
}
