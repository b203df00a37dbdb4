#!/usr/bin/env bash
# Proves the crates that C links, which tools/library.txt names, and joins their archives into the one library that a user links:
# target/staticlib/libbaxhiso.a. Run from anywhere.
set -u
top=$(cd "$(dirname "$(readlink -f "$0")")/.." && pwd)
name=library
. "$top/tools/proved.sh"
one_at_a_time library
