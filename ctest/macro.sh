#!/bin/sh
# macro.sh TEXT: the text with the header's macros put in, as a program that includes the header sees it.
cd "$(dirname "$0")" || exit 2
echo "$1" | cc -E -P -include ../include/corbastrigo.h - | tail -n 1
