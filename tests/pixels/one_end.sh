#!/usr/bin/env bash
# one_end.sh           proves clf_c_c, builds the static library, links one_end.c with it and compares a million pixels for each end and limit of a
#                      Range with one end; ARCHIVE in the environment names a library that is built already
# one_end.sh PROGRAM   compares one_end.c with a program that speaks the line protocol (PROTOCOL.md) instead, on 64,800 pixels; PROGRAM is a
#                      command, split at spaces, and no library is needed
# Everything is written to a temporary folder.
set -eu
exec bash "$(dirname "$0")/against.sh" one_end "$@"
