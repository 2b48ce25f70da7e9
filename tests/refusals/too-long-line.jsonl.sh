#!/usr/bin/env bash
# A last line that is too long, though it ends with a document.
printf '%65537s{"do":"show","session":7}' ""
