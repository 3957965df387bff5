#!/usr/bin/env bash
# Calls from several threads at once against the same calls alone, byte by byte (tests/threads.c).
set -eu
cd "$(dirname "$0")/.."
tests/second/archive.sh
cc -std=c99 -Wall -Wextra -Wpedantic -Werror -Iinclude -pthread -o target/second/threads tests/threads.c target/staticlib/libvithmork.a
target/second/threads
