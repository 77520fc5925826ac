"""JUnit XML, as Jenkins and GitLab take it."""
from __future__ import annotations

from collections.abc import Iterable, Mapping
from xml.etree.ElementTree import Element, SubElement, tostring

# What is counted of a suite.
COUNTED_ELEMENTS = {'tests': 'testcase', 'failures': 'testcase/failure', 'errors': 'testcase/error',
                    'skipped': 'testcase/skipped'}


class Suite:
    """A suite of test cases, and its properties if it has some."""

    def __init__(self, name: str, properties: Iterable[tuple[str, object]] = ()) -> None:
        self.root = Element('testsuites')
        self.suite, several = SubElement(self.root, 'testsuite', name=name), list(properties)
        inner = SubElement(self.suite, 'properties') if several else self.suite
        for key, value in several:
            SubElement(inner, 'property', name=key, value=str(value))

    def add(self, about: str, name: str, tag: str | None = None, message: str = '', text: str = '',
            attributes: Mapping[str, str] = {}, **of_case: str) -> Element:
        """Adds a case, which passed if there is no tag, and then has a text as its output."""
        case = SubElement(self.suite, 'testcase', classname=about, name=name)
        case.attrib.update(of_case)
        if tag:
            SubElement(case, tag, {**attributes, 'message': message}).text = text or None
        elif text:
            SubElement(case, 'system-out').text = text
        return case

    def written(self, names: Iterable[str] = COUNTED_ELEMENTS, **attributes: str) -> bytes:
        """Returns all of it, with how many cases there are and passed not."""
        for name in names:
            self.suite.set(name, str(len(self.suite.findall(COUNTED_ELEMENTS[name]))))
        self.suite.attrib.update(attributes)
        return bytes(tostring(self.root, encoding='utf-8', xml_declaration=True)) + b'\n'
