"""Refusals as exceptions."""

import copy
import pickle

import pytest

from moortinker import Number, Refused, judge


def test_what_it_says():
    refused = Refused(9, 6)
    assert (refused.number, refused.place, refused.name) == (9, 6, "wrong check byte")
    assert str(refused) == "refused 9 at 6 (wrong check byte)"
    assert repr(refused) == "Refused(9, 6)"
    assert Refused(2) == Refused(Number.TABLE_NOT_VALID, 0)


def test_equality():
    assert Refused(9, 6) == Refused(9, 6)
    assert len({Refused(9, 6), Refused(9, 6), Refused(9, 7), Refused(8, 6)}) == 3
    assert Refused(9, 6) != (9, 6)


@pytest.mark.parametrize("number", Number)
def test_copies(number):
    refused = Refused(number, 2**31)
    for again in (pickle.loads(pickle.dumps(refused)), copy.copy(refused), copy.deepcopy(refused)):
        assert again == refused and str(again) == str(refused) and again.number is number


def test_is_a_value_error_with_a_place():
    with pytest.raises(ValueError, match=r"refused 3 at 2 \(run ended\)"):
        judge(b"\xaa\xaa")


def test_no_such_number():
    with pytest.raises(ValueError, match="20 is not a valid Number"):
        Refused(20, 0)
