#!/usr/bin/env bash
# Builds target/staticlib/libvithmork.a where what it is made from has changed, so that no older one is tested.
set -eu
mkdir -p target/second
./build vithmork 2>target/second/archive.log || { cat target/second/archive.log && exit 1; }
