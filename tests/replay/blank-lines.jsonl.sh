#!/usr/bin/env bash
# Lines of white space alone, with a show between them.
printf '\n \t\r\n\r\n{"do":"show","session":7}\n\n'
