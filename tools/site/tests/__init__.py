"""Tests of the package's modules, by a fake program where one is needed."""
