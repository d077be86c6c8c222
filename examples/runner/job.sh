#!/bin/sh
# A job of the example: the unit tests of change 102 fail at once, and the job that makes the documents takes a second.
echo "$GATE_JOB of change $GATE_CHANGE, patch set $GATE_PATCHSET, in build set $GATE_SET"
case $GATE_JOB.$GATE_CHANGE in
unit.102) exit 1 ;;
docs.*) exec sleep 1 ;;
esac
