"""A plan's text as request 1 of document 02 has it, read line by line."""
import re

LINE = re.compile(rb';.*|\(a(0|[1-9][0-9]*)\)')  # a dot is every byte but a newline


def read(text):
    """The plan in a text and no refusal, or no plan and the line of refusal 12."""
    if len(text) > 65536:
        return [], 'refused 12 0\n'
    *lines, rest = text.split(b'\n')
    matches = [LINE.fullmatch(line) for line in lines]
    if None in matches or rest:
        return [], f'refused 12 {[*matches, None].index(None)}\n'
    numbers = [match[1] for match in matches if match[1]]
    return [min(int(digits[:4]), 255) for digits in numbers], ''  # four digits are too large, and so are more


def written(plan):
    return ''.join(f'(a{step})\n' for step in plan)
