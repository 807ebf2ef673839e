# The models: what is stored is what they make.

test_model_vectors() {
    needs python3
    python3 -B tests/model/make.py --check
}

test_model_boards() {
    needs python3
    python3 -B tests/model/make_boards.py --check >target/model.log || { tail -n 5 target/model.log; return 1; }
}

# the two boards that fw_parser's examples compute with
test_model_examples() {
    needs python3
    python3 -B tests/model/boards.py --check
}
