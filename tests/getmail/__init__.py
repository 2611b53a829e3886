"""Tests of the built program `getmail`."""
