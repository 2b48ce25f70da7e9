#!/usr/bin/env bash
# A line of spaces that is as long as a line may be, and a last one.
printf '%65536s\n%65536s' "" ""
