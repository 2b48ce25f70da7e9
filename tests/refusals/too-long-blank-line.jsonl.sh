#!/usr/bin/env bash
# A last line of spaces that is one byte too long.
printf '%65537s' ""
