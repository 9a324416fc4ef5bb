"""The parts of a suite."""

import json
from dataclasses import dataclass, field


@dataclass
class Part:
    head: dict
    lines: list = field(default_factory=list)  # steps with their replies

    @property
    def opening(self):
        return self.head['opening']

    @property
    def tests(self):
        return self.head['tests']

    @property
    def script(self):
        return {'format': 2, 'opening': self.opening, 'steps': [step for step, _ in self.lines]}


def parts_of(lines):
    """The parts of a suite's lines, in their order."""
    parts = []
    for line in map(json.loads, lines):
        if isinstance(line, dict):
            parts.append(Part(line))
        else:
            parts[-1].lines.append(line)
    return parts
