# The documents' names against the sources.

test_docs_proofs() {
    needs python3
    python3 tests/docs/proofs.py
}

test_docs_crates() {
    needs python3
    python3 tests/docs/crates.py
}

# The header's constants against the definitions, the Rust wrapper's and the bench's words.
test_docs_header() {
    needs python3
    python3 tests/docs/header.py
}
