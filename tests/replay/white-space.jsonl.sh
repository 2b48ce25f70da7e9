#!/usr/bin/env bash
# A blank line, then white space round a document on a last line without a newline.
printf ' \n\t{"do":"show","session":7} \r'
