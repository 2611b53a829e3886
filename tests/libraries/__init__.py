"""Tests of the built tests of the libraries."""
