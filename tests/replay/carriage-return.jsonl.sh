#!/usr/bin/env bash
# A carriage return before the newline.
printf '{"do":"show","session":7}\r\n'
