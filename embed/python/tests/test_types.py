"""Whether the package says of each value which type it has, and whether the types can be found."""

import dataclasses
import inspect
import typing
import unittest
from collections.abc import Callable, Iterator
from pathlib import Path
from typing import Any

import sno_rewrite

FOLDER = Path(sno_rewrite.__file__).parent


def calls_of(name: str, value: object) -> Iterator[tuple[str, Callable[..., Any]]]:
    """The functions in the package's files that a public name has; Python makes those of a dataclass."""
    if inspect.isclass(value):
        for member, inner in vars(value).items():
            if inspect.isfunction(inner) and inner.__code__.co_filename.startswith(str(FOLDER)):
                yield f"{name}.{member}", inner
    elif inspect.isfunction(value):
        yield name, value


class Types(unittest.TestCase):
    def test_the_package_is_marked_as_typed(self) -> None:
        self.assertTrue((FOLDER / "py.typed").is_file())

    def test_each_public_name_is_there_and_explained(self) -> None:
        self.assertEqual(sno_rewrite.__all__, sorted(sno_rewrite.__all__, key=lambda it: (not it.isupper(), it)))
        for name in sno_rewrite.__all__:
            value = getattr(sno_rewrite, name)
            if inspect.isclass(value) or inspect.isfunction(value):
                self.assertTrue(value.__doc__, name)

    def test_each_call_has_types(self) -> None:
        count = 0
        for public in sno_rewrite.__all__:
            for name, call in calls_of(public, getattr(sno_rewrite, public)):
                # Raises NameError for a type that can't be found.
                types = typing.get_type_hints(call)
                wanted = {each for each in inspect.signature(call).parameters if each != "self"}
                with self.subTest(name=name):
                    self.assertEqual(wanted - set(types), set())
                    self.assertIn("return", types)
                count += 1
        self.assertGreater(count, 25)

    def test_each_attribute_has_a_type(self) -> None:
        for name in sno_rewrite.__all__:
            value = getattr(sno_rewrite, name)
            if dataclasses.is_dataclass(value):
                types = typing.get_type_hints(value)
                self.assertEqual({field.name for field in dataclasses.fields(value)} - set(types), set())


if __name__ == "__main__":
    unittest.main()
