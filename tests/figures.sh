#!/usr/bin/env bash
# Every figure of the pages is what it comes out to today: stored listings and output, quotes, sentences, pictures, and the lines of definitions.
exec bash "$(dirname "$0")/../docs/figures.sh" --check
