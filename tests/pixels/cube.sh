#!/usr/bin/env bash
# cube.sh           proves clf_c_c, builds the static library, links cube.c with it and compares a million pixels for each size and method of a
#                   LUT3D; ARCHIVE in the environment names a library that is built already
# cube.sh PROGRAM   compares cube.c with a program that speaks the line protocol (PROTOCOL.md) instead, on 25,200 pixels; PROGRAM is a command,
#                   split at spaces, and no library is needed
# Everything is written to a temporary folder.
set -eu
exec bash "$(dirname "$0")/against.sh" cube "$@"
