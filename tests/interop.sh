#!/usr/bin/env bash
# `make interop`: tshark reads a sample of requests and answers (tests/cases/interop.txt) and its reading is compared with
# document 01; docs/INTEROP.md is written anew. Outside the gate, since it needs a tool that nothing else needs.
set -eu -o pipefail
cd "$(dirname "$0")/.."
. tests/setup.sh
. tests/lib.sh
need tshark tshark

mkdir -p build
build_second

sample=tests/cases/interop.txt
build/second named "$sample" >build/interop.cases
build/second cases <build/interop.cases >build/interop.results
build/second expected "$sample" <build/interop.results
python3 tests/interop.py capture "$sample" build/interop.cases build/interop.results build/interop.pcap
python3 tests/interop.py check "$sample" build/interop.pcap docs/INTEROP.md
