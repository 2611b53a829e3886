"""Tests of the built program `popd`."""
