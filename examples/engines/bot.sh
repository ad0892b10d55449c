#!/bin/sh
# The bot as a program for `play`, which gives its programs no words. It looks DEPTH turns ahead for a win, 1 where the
# environment doesn't say.
exec "$(dirname "$0")/../../arimaa" bot --depth "${DEPTH:-1}"
