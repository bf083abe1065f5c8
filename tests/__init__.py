"""Tests of the built programs, and of the tools that build them.

    python3 -m unittest                     all tests, one after another
    python3 -m unittest -k recall           the tests whose names have "recall" in them
    python3 -m unittest tests.test_rules    the tests of one module
    tests/run.py                            all tests, side by side by processes

The variable DESK_PROGRAMS says where the built programs are; without it they are in build/, where `make` leaves them. Behind the tests
stands for each module how many cases were checked, and then what was left out.
"""
