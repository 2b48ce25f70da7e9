#!/usr/bin/env bash
# A last line without a newline.
printf '{"do":"show","session":7}'
