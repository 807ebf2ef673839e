# A short run of the oracle (docs/ORACLE.md).

test_oracle() {
    local lacking
    tests/oracle/run >target/oracle.log 2>&1 || { tail -n 25 target/oracle.log; return 1; }
    lacking=$(sed -n 's/^oracle not run: //p' target/oracle.log)
    [ -z "$lacking" ] || left_out "$lacking"
    grep -q '^no difference but those of the rules$' target/oracle.log
}
