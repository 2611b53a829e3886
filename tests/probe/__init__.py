"""Tests of the stores over real folders and of the record, by a small program that makes calls one by one."""
