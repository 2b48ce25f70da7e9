#!/usr/bin/env bash
# A form feed is no white space of a document, and neither is a no-break space.
printf '\f\n\302\240\n'
